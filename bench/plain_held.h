/* What a call on the plain stream reader leaves behind: held bytes and a row.
 * Its short ways and its long way share this. */
#ifndef PLAIN_HELD_H
#define PLAIN_HELD_H

#include "amp.h"
#include "plain_blocks.h"
#include "plain_messages.h"

enum { PACKETS = 1, SENTENCES = 2, COMMANDS = 3, MESSAGES = 4 };
enum {
    SHORT_PACKET = 6, REPORT_LENGTH = 75,
    LONGEST_REPORT = 76, BEHIND_SUM = 73,     /* with a comma, which stands there */
    LONGEST_PAYLOAD = 128, BEHIND_STAR = 4, LONGEST_SENTENCE = 134, HELD = 133
};

/* The most bytes that each family holds. */
static const uint8_t limits[5] = {
    0, LONGEST_REPORT - 1, HELD, SHORT_PACKET - 1, LONGEST_MESSAGE - 1
};

/* The marks and an allowed count, the first mark lowest. */
#define COMMAND_MARKS UINT64_C(0x01555555)
#define PACKET_MARKS UINT64_C(0x01AAAAAA)
#define REPORT_MARKS UINT64_C(0x43AAAAAA)

/* How many bytes decide a report that has this one behind its check bytes. */
WITHIN size_t report_length(uint8_t behind_sum)
{
    return REPORT_LENGTH + (behind_sum == ',');
}

/* Any call on any state, offering any bytes, with a row of any length. */
uint32_t settle(amp_reader *reader, const uint8_t *offered, size_t n,
                int64_t *row, size_t row_len);

/* A call on an open reader of family 1, 2 or 4, with room in the row, of which
 * it is known that no start is left among the held bytes, nor before the
 * offered byte p. */
uint32_t settle_offered(amp_reader *reader, const uint8_t *offered, size_t n,
                        size_t p, int64_t *row);

WITHIN void clear_all(amp_reader *reader)
{
    memset(reader->held, 0, HELD);
    reader->count = 0;
}

/* Whether the held places from used on, at most 16, are clear.  Where nothing
 * was written there a short while ago, to look is quicker than to write. */
WITHIN int is_clear(const uint8_t *held, size_t used)
{
    return !any_set(block_at(held + used) | block_at(held + 16) | block_at(held + 32)
                    | block_at(held + 48) | block_at(held + 64) | block_at(held + 80)
                    | block_at(held + 96) | block_at(held + 112)
                    | block_at(held + HELD - BLOCK));
}

/* Lays the row of an answer that is no frame. */
WITHIN uint32_t lay(int64_t *row, int64_t kind, size_t taken)
{
    row[AMP_KIND] = kind;
    row[AMP_CODE] = 0;
    row[AMP_TAKEN] = (int64_t)taken;
    row[AMP_START] = 0;
    row[AMP_SKIPPED] = 0;
    row[AMP_LENGTH] = 0;
    return 0;
}

/* Lays the rest of the row of a frame whose kind, code and values stand there,
 * and moves the reader behind it.  The frame starts skip bytes behind the
 * first held one. */
WITHIN uint32_t hand_out(amp_reader *reader, size_t skip, size_t length, size_t taken,
                         int64_t *row)
{
    uint32_t start = reader->at + (uint32_t)skip;

    row[AMP_TAKEN] = (int64_t)taken;
    row[AMP_START] = start;
    row[AMP_SKIPPED] = (uint32_t)(reader->skipped + (uint32_t)skip);
    row[AMP_LENGTH] = (int64_t)length;
    reader->at = start + (uint32_t)length;
    reader->skipped = 0;
    return 0;
}

/* The same for a short packet, with nothing held behind it.  Held places from
 * the ninth on are clear, here and below. */
WITHIN uint32_t give_short(amp_reader *reader, size_t skip, int64_t kind, uint8_t code,
                           int64_t *row)
{
    size_t taken = skip + SHORT_PACKET - reader->count;

    put_word(reader->held, 0);
    reader->count = 0;
    row[AMP_KIND] = kind;
    row[AMP_CODE] = code;
    return hand_out(reader, skip, SHORT_PACKET, taken, row);
}

/* How many of the last bytes are an undecided start, the last one being the
 * word's highest, and those that are not there being 0: the most that are, up
 * to five.  No branch hangs on what the bytes are. */
WITHIN size_t begun(uint64_t word, uint64_t marks, uint64_t others)
{
    size_t many = word >> 56 == (marks & 0xFF);

    many = word >> 48 == (marks & 0xFFFF) ? 2 : many;
    many = word >> 40 == (marks & 0xFFFFFF) ? 3 : many;
    many = word >> 32 == marks || word >> 32 == others ? 4 : many;
    word = word >> 24 & 0xFFFFFFFF;
    return word == marks || word == others ? 5 : many;
}

/* Holds what is begun at the end of such a word; skips all before it of the
 * have bytes that end there, and wants more. */
WITHIN uint32_t keep_begun(amp_reader *reader, uint64_t word, uint64_t marks, uint64_t others,
                           size_t have, size_t n, int64_t *row)
{
    size_t many = begun(word, marks, others), skip = have - many;

    put_word(reader->held, word >> 8 * (7 - many) >> 8);
    reader->count = (uint8_t)many;
    if (skip > 0) {
        reader->at += (uint32_t)skip;
        reader->skipped += (uint32_t)skip;
    }
    return lay(row, AMP_MORE, n);
}

#endif
