/* A stream reader in plain C, made to be fast.
 *
 * Nothing is known of a reader but its 144 bytes, and those may be any.  So in
 * every call the held bytes are looked at, and the unused places have to be
 * clear after it whatever stood there before.
 *
 * In a call of few bytes nearly always the start that was undecided stays so,
 * or is decided by the last byte.  Each family has a short way for that, which
 * looks at what it must and touches nothing twice.  Whatever else there may be
 * goes the long way, `settle`, before anything was altered but unused places.
 *
 * The shortest ways call nothing but in their last step, and stand in functions
 * of their own, so that they need no room on the stack and save no registers. */
#include "plain_fields.h"
#include "plain_held.h"
#include "plain_stream.h"
#include "plain_tables.h"

/* ---- What the short ways share ------------------------------------------ */

/* Clears the held places from used on, at most 112: whole blocks from the last
 * place down, of which the last begins at used. */
#define CLEAR(place) \
    if (used > (place)) { \
        put_block(held + used, none); \
        return; \
    } \
    put_block(held + (place), none);

WITHIN void clear_from(uint8_t *held, size_t used)
{
    const block none = {0};

    put_block(held + HELD - BLOCK, none);
    put_block(held + 112, none);
    CLEAR(96)
    CLEAR(80)
    CLEAR(64)
    CLEAR(48)
    CLEAR(32)
    CLEAR(16)
    put_block(held + used, none);
}

/* Takes all that is offered behind what is held, and wants more. */
WITHIN uint32_t take_all(amp_reader *reader, const uint8_t *offered, size_t n, int64_t *row)
{
    clear_from(reader->held, reader->count);
    move_bytes(reader->held + reader->count, offered, n);
    reader->count = (uint8_t)(reader->count + n);
    return lay(row, AMP_MORE, n);
}

/* The held bytes, at most five, and those offered behind them, as a word; where
 * there are more than eight in all, the first eight. */
WITHIN uint64_t joined_word(const amp_reader *reader, const uint8_t *offered, size_t n)
{
    unsigned shift = 8 * reader->count;

    return (word_at(reader->held) & ~(~UINT64_C(0) << shift))
         | (n == 1 ? offered[0] : word_of(offered, n)) << shift;
}

/* Whether the bytes of the word, have of them and at most seven, match marks
 * and count as far as they go. */
WITHIN int matches(uint64_t word, size_t have, uint64_t marks)
{
    return ((word ^ marks) & 0xFFFFFFFF) << 8 * (7 - have) << 8 == 0;
}

/* Whether its first six bytes are a good short packet. */
WITHIN int is_short(uint64_t word, uint64_t marks, unsigned use)
{
    unsigned code = word >> 32 & 0xFF;

    return (word & 0xFFFFFFFF) == marks && code == (word >> 40 & 0xFF)
        && (code_uses[code] & use) != 0;
}

/* Holds the bytes of the word, many of them and at most seven, and wants more. */
WITHIN uint32_t keep_word(amp_reader *reader, uint64_t word, size_t many, size_t n, int64_t *row)
{
    put_word(reader->held, word);
    reader->count = (uint8_t)many;
    return lay(row, AMP_MORE, n);
}

/* ---- Family 3 ----------------------------------------------------------- */

APART uint32_t feed_commands(amp_reader *reader, const uint8_t *offered, size_t n,
                             int64_t *row, size_t row_len)
{
    size_t have = reader->count + n;
    uint64_t word;

    if (reader->count > limits[COMMANDS] || !is_clear(reader->held, 8))
        return settle(reader, offered, n, row, row_len);
    word = joined_word(reader, offered, n);
    if (have < SHORT_PACKET && matches(word, have, COMMAND_MARKS))
        return keep_word(reader, word, have, n, row);
    if (have >= SHORT_PACKET && is_short(word, COMMAND_MARKS, COMMANDED))
        return give_short(reader, 0, AMP_COMMAND, (uint8_t)(word >> 32), row);
    if (have > SHORT_PACKET)
        return settle(reader, offered, n, row, row_len);
    return keep_begun(reader, word << 8 * (7 - have) << 8, COMMAND_MARKS, COMMAND_MARKS, have, n,
                      row);
}

/* ---- Family 1 ----------------------------------------------------------- */

/* The report that was begun is whole, unless it has a comma and only its last
 * byte is missing: it is read in place. */
APART uint32_t feed_report(amp_reader *reader, const uint8_t *offered, size_t n,
                           int64_t *row, size_t row_len)
{
    size_t count = reader->count;
    size_t length = report_length(count > BEHIND_SUM ? reader->held[BEHIND_SUM]
                                                     : offered[BEHIND_SUM - count]);

    if (count + n < length)
        return take_all(reader, offered, n, row);
    move_bytes(reader->held + count, offered, length - count);
    if (!read_report(reader->held, row))
        return settle(reader, offered, n, row, row_len);
    clear_all(reader);
    return hand_out(reader, 0, length, length - count, row);
}

/* No report is begun in the held bytes, which are at most five, and at most
 * seven are there in all. */
APART uint32_t feed_few(amp_reader *reader, const uint8_t *offered, size_t n,
                        int64_t *row, size_t row_len)
{
    size_t have = reader->count + n;
    uint64_t word = joined_word(reader, offered, n);

    clear_from(reader->held, 8);
    if (matches(word, have, REPORT_MARKS)
        || (have < SHORT_PACKET && matches(word, have, PACKET_MARKS)))
        return keep_word(reader, word, have, n, row);
    if (have >= SHORT_PACKET && is_short(word, PACKET_MARKS, ACKNOWLEDGED))
        return give_short(reader, 0, AMP_ACK, (uint8_t)(word >> 32), row);
    if (have > SHORT_PACKET)
        return settle(reader, offered, n, row, row_len);
    return keep_begun(reader, word << 8 * (7 - have) << 8, PACKET_MARKS, REPORT_MARKS, have, n,
                      row);
}

/* Nothing is held, and a report begins what is offered, at least 75 bytes. */
APART uint32_t feed_at_once(amp_reader *reader, const uint8_t *offered, size_t n,
                            int64_t *row, size_t row_len)
{
    size_t length = report_length(offered[BEHIND_SUM]);

    if (n < length || !is_clear(reader->held, 0) || !read_report(offered, row))
        return settle(reader, offered, n, row, row_len);
    return hand_out(reader, 0, length, length, row);
}

APART uint32_t feed_packets(amp_reader *reader, const uint8_t *offered, size_t n,
                            int64_t *row, size_t row_len)
{
    size_t count = reader->count;

    if (count > limits[PACKETS])
        return settle(reader, offered, n, row, row_len);
    if (count >= 4 && half_at(reader->held) == REPORT_MARKS) {
        if (count + n >= REPORT_LENGTH)
            return feed_report(reader, offered, n, row, row_len);
        return take_all(reader, offered, n, row);
    }
    if (count < SHORT_PACKET && count + n < 8)
        return feed_few(reader, offered, n, row, row_len);
    if (count == 0 && n >= REPORT_LENGTH && half_at(offered) == REPORT_MARKS)
        return feed_at_once(reader, offered, n, row, row_len);
    return settle(reader, offered, n, row, row_len);
}

/* ---- What families 2 and 4 share ---------------------------------------- */

/* Whether the held bytes, count from 1 to 127 and the first of them seen, are
 * else all ones that a text may hold.  Blocks are looked at as one_more writes
 * them: a load of which only a part was just written waits. */
WITHIN int all_text(const uint8_t *held, size_t count, struct ends ends)
{
    block fit = text_of(block_at(held), ends) | first_of_block(1);
    size_t i;

    for (i = BLOCK; i <= count; i += BLOCK) {
        if (!all_set(fit))
            return 0;
        fit = text_of(block_at(held + i), ends);
    }
    return all_set(fit | ~first_of_block(count + BLOCK - i));
}

/* The same from the last byte back, in the blocks that calls of sixteen bytes
 * write. */
WITHIN int all_text_back(const uint8_t *held, size_t count, struct ends ends)
{
    size_t i;

    for (i = count; i > BLOCK; i -= BLOCK)
        if (!all_set(text_of(block_at(held + i - BLOCK), ends)))
            return 0;
    return all_set(text_of(block_at(held + 1), ends) | ~first_of_block(i - 1));
}

/* The block of held bytes that the next one belongs to, with that byte in it
 * and nothing behind. */
WITHIN block filled(const amp_reader *reader, uint8_t byte)
{
    size_t within = reader->count % BLOCK;
    block before = first_of_block(within), here = first_of_block(within + 1) ^ before;

    return (block_at(reader->held + (reader->count - within)) & before)
         | (((block){0} + byte) & here);
}

/* Takes a byte behind a text, in the block that it belongs to, and clears the
 * blocks that follow. */
WITHIN uint32_t one_more(amp_reader *reader, uint8_t byte, int64_t *row)
{
    size_t count = reader->count, whole = count - count % BLOCK;
    block last = filled(reader, byte);

    if (count < 112)
        clear_from(reader->held, whole + BLOCK);
    else
        memset(reader->held + HELD - 8, 0, 8);
    put_block(reader->held + whole, last);
    reader->count = (uint8_t)(count + 1);
    return lay(row, AMP_MORE, 1);
}

/* Behind a text, or where nothing is held, comes what a frame begins with: what
 * was held is broken off, and another frame is begun. */
WITHIN uint32_t begin_again(amp_reader *reader, struct ends ends, int64_t *row)
{
    uint32_t count = reader->count;

    clear_from(reader->held, BLOCK);
    put_block(reader->held, ((block){0} + ends.first) & first_of_block(1));
    reader->count = 1;
    reader->at += count;
    reader->skipped += count;
    return lay(row, AMP_MORE, 1);
}

/* Holds what is offered, at most 133 bytes, where nothing was and all places are
 * clear; wants more. */
WITHIN uint32_t keep_all(amp_reader *reader, const uint8_t *offered, size_t n, int64_t *row)
{
    move_bytes(reader->held, offered, n);
    reader->count = (uint8_t)n;
    return lay(row, AMP_MORE, n);
}

/* ---- Family 2 ----------------------------------------------------------- */

/* The payload ends at end, with a star or with the bytes that are there. */
WITHIN uint32_t feed_end(amp_reader *reader, const uint8_t *offered, size_t n, size_t end,
                         int64_t *row, size_t row_len)
{
    size_t count = reader->count, whole = end + 1 + BEHIND_STAR;

    if (count + n < whole && count <= 112)
        return take_all(reader, offered, n, row);
    if (count + n < whole || whole <= count || whole > HELD)
        return settle(reader, offered, n, row, row_len);
    move_bytes(reader->held + count, offered, whole - count);
    if (!read_sentence(reader->held, end, row))
        return settle(reader, offered, n, row, row_len);
    clear_all(reader);
    return hand_out(reader, 0, whole, whole - count, row);
}

/* More than a byte, or one that ends the payload, or one behind the star. */
APART uint32_t feed_payload(amp_reader *reader, const uint8_t *offered, size_t n,
                            int64_t *row, size_t row_len)
{
    const uint8_t *held = reader->held;
    size_t count = reader->count, room = LONGEST_PAYLOAD + 2 - count, end;

    if (all_text_back(held, count, of_sentence)) {
        end = count + text_end(offered, 0, n < room ? n : room, of_sentence);
        if (end >= LONGEST_PAYLOAD + 2 || (end < count + n && offered[end - count] != '*'))
            return settle_offered(reader, offered, n, end - count, row);
    } else {
        end = text_end(held, 1, count, of_sentence);
        if (held[end] != '*')
            return settle(reader, offered, n, row, row_len);
    }
    return feed_end(reader, offered, n, end, row, row_len);
}

/* Nothing is held. */
APART uint32_t feed_first(amp_reader *reader, const uint8_t *offered, size_t n,
                          int64_t *row, size_t row_len)
{
    size_t length;

    if (!is_clear(reader->held, 0) || (n > 0 && offered[0] != '$'))
        return settle(reader, offered, n, row, row_len);
    if (n <= 1) {
        reader->held[0] = n > 0 ? '$' : 0;
        reader->count = (uint8_t)n;
        return lay(row, AMP_MORE, n);
    }
    if (n < SHORTEST_WRITTEN && text_end(offered, 1, n, of_sentence) == n)
        return keep_all(reader, offered, n, row);
    length = read_written(offered, n, row);
    if (length == 0)
        return settle_offered(reader, offered, n, 0, row);
    return hand_out(reader, 0, length, length, row);
}

APART uint32_t feed_sentences(amp_reader *reader, const uint8_t *offered, size_t n,
                              int64_t *row, size_t row_len)
{
    size_t count = reader->count;

    if (count == 0)
        return feed_first(reader, offered, n, row, row_len);
    if (count > 127 || reader->held[0] != '$')
        return settle(reader, offered, n, row, row_len);
    if (n == 1 && offered[0] - 0x20u <= 0x5E && all_text(reader->held, count, of_sentence))
        return offered[0] != '$' ? one_more(reader, offered[0], row)
                                 : begin_again(reader, of_sentence, row);
    return feed_payload(reader, offered, n, row, row_len);
}

/* ---- Family 4 ----------------------------------------------------------- */

/* A semicolon behind a text: the message is read in place, with the block
 * written whole that a word is then read from. */
APART uint32_t feed_semicolon(amp_reader *reader, const uint8_t *offered, int64_t *row)
{
    size_t count = reader->count;

    put_block(reader->held + (count - count % BLOCK), filled(reader, ';'));
    if (!read_message(reader->held, count, row))
        return settle_offered(reader, offered, 1, 1, row);
    clear_all(reader);
    return hand_out(reader, 0, count + 1, 1, row);
}

/* More than a byte, or none, or one that no text may hold. */
APART uint32_t feed_text(amp_reader *reader, const uint8_t *offered, size_t n,
                         int64_t *row, size_t row_len)
{
    size_t count = reader->count, room = LONGEST_MESSAGE - count, behind;

    if (!all_text_back(reader->held, count, of_message))
        return settle(reader, offered, n, row, row_len);
    behind = text_end(offered, 0, n < room ? n : room, of_message);
    if (behind == n && behind < room)
        return take_all(reader, offered, n, row);
    if (behind < room && offered[behind] == ';') {
        move_bytes(reader->held + count, offered, behind + 1);
        if (read_message(reader->held, count + behind, row)) {
            clear_all(reader);
            return hand_out(reader, 0, count + behind + 1, behind + 1, row);
        }
    }
    return settle_offered(reader, offered, n, behind, row);
}

/* Nothing is held. */
APART uint32_t feed_caret(amp_reader *reader, const uint8_t *offered, size_t n,
                          int64_t *row, size_t row_len)
{
    size_t most = n < LONGEST_MESSAGE ? n : LONGEST_MESSAGE, end;

    if (!is_clear(reader->held, 0))
        return settle(reader, offered, n, row, row_len);
    if (n == 0 || offered[0] != '^')
        return settle_offered(reader, offered, n, 0, row);
    end = text_end(offered, 1, most, of_message);
    if (end == n && n < LONGEST_MESSAGE)
        return keep_all(reader, offered, n, row);
    if (end == most || offered[end] != ';' || !read_message(offered, end, row))
        return settle_offered(reader, offered, n, end, row);
    return hand_out(reader, 0, end + 1, end + 1, row);
}

/* Whether it is family 4 at all is asked here: with a fourth answer of its own
 * plain_feed would become a jump through a table, and slower for all. */
APART uint32_t feed_messages(amp_reader *reader, const uint8_t *offered, size_t n,
                             int64_t *row, size_t row_len)
{
    size_t count = reader->count;

    if (reader->family != MESSAGES || count > limits[MESSAGES])
        return settle(reader, offered, n, row, row_len);
    if (count == 0)
        return n == 1 && offered[0] == '^' ? begin_again(reader, of_message, row)
                                           : feed_caret(reader, offered, n, row, row_len);
    if (reader->held[0] != '^')
        return settle(reader, offered, n, row, row_len);
    if (n == 1 && all_text(reader->held, count, of_message)) {
        if (offered[0] == ';')
            return feed_semicolon(reader, offered, row);
        if (offered[0] == '^')
            return begin_again(reader, of_message, row);
        if (offered[0] - 0x20u <= 0x5E && count < limits[MESSAGES])
            return one_more(reader, offered[0], row);
    }
    return feed_text(reader, offered, n, row, row_len);
}

/* ---- The entries -------------------------------------------------------- */

uint32_t plain_feed(amp_reader *reader, const uint8_t *offered, size_t offered_len,
                    int64_t *row, size_t row_len)
{
    if (!reader->closed && row_len >= AMP_ROW) {
        if (reader->family == PACKETS)
            return feed_packets(reader, offered, offered_len, row, row_len);
        if (reader->family == SENTENCES)
            return feed_sentences(reader, offered, offered_len, row, row_len);
        if (reader->family == COMMANDS)
            return feed_commands(reader, offered, offered_len, row, row_len);
        return feed_messages(reader, offered, offered_len, row, row_len);
    }
    return settle(reader, offered, offered_len, row, row_len);
}

uint32_t plain_fresh(amp_reader *reader, uint32_t family)
{
    if (family < PACKETS || family > MESSAGES)
        return AMP_NO_FAMILY;
    memset(reader, 0, sizeof *reader);
    reader->family = (uint8_t)family;
    return 0;
}

uint32_t plain_close(amp_reader *reader)
{
    if (reader->family < PACKETS || reader->family > MESSAGES)
        return AMP_NO_FAMILY;
    if (reader->count > limits[reader->family])
        return AMP_HOLDS_TOO_MUCH;
    memset(reader->held + reader->count, 0, HELD - reader->count);
    reader->closed = 1;
    return 0;
}
