/* The long way of the plain stream reader: any call on any state.
 *
 * The bytes held and the bytes offered are one stretch.  A walk goes along it
 * from its first byte: at a place where a good frame starts it hands that out,
 * at one where a start is undecided it wants more, and from any other it steps
 * on.  Starts among the held bytes are looked at in a copy, with as many of the
 * offered ones behind them as the longest frame has; all others where they
 * stand.  Commands have no walk: sixteen starts are looked at together, and the
 * last bytes are copied too. */
#include "plain_fields.h"
#include "plain_held.h"
#include "plain_tables.h"

static inline void hold(amp_reader *reader, const uint8_t *from, size_t many)
{
    if (reader->count > 0 || !is_clear(reader->held, 0))
        clear_all(reader);
    move_bytes(reader->held, from, many);
    reader->count = (uint8_t)many;
}

/* A stretch of bytes, and how far a walk along it has come. */
struct walk {
    const uint8_t *s;
    size_t n;
    size_t p;          /* the start looked at */
    size_t until;      /* only starts before this place are looked at */
    size_t seen;       /* how many bytes had to be seen to come here */
    size_t length;     /* of the frame that starts at p; 0 if there is none */
    int closed;        /* no byte will follow: no start is undecided */
};

/* ---- Family 1 ----------------------------------------------------------- */

/* The end of a stretch, with fewer than four bytes: a start that is all marks
 * there is undecided. */
static void walk_marks(struct walk *w)
{
    size_t p = w->n;

    while (!w->closed && p > w->p && w->s[p - 1] == 0xAA)
        p--;
    w->p = p;
}

/* Whether the walk ends at p, where three marks stand and then another byte:
 * at a frame, or at a start that is undecided.  If not, the next start is at
 * best behind that byte. */
static inline int ends_at_packet(struct walk *w, int64_t *row)
{
    const uint8_t *s = w->s + w->p;
    size_t left = w->n - w->p;

    if (s[3] == 1) {
        if (left < SHORT_PACKET)
            return !w->closed;
        if (s[4] != s[5] || !(code_uses[s[4]] & ACKNOWLEDGED))
            return 0;
        row[AMP_KIND] = AMP_ACK;
        row[AMP_CODE] = s[4];
        w->length = SHORT_PACKET;
        return 1;
    }
    if (s[3] != 0x43)
        return 0;
    if (left < REPORT_LENGTH || left < report_length(s[BEHIND_SUM]))
        return !w->closed;
    if (!read_report(s, row))
        return 0;
    w->length = report_length(s[BEHIND_SUM]);
    return 1;
}

/* At which of the sixteen starts from s on a good packet may stand, as far as
 * its first six bytes tell. */
static inline block packets_near(const uint8_t *s)
{
    block fourth = block_at(s + 3), fifth = block_at(s + 4);

    return (block)(block_at(s) == 0xAA) & (block)(block_at(s + 1) == 0xAA)
         & (block)(block_at(s + 2) == 0xAA)
         & (((block)(fourth == 1) & (block)(fifth == block_at(s + 5)))
            | ((block)(fourth == 0x43) & (block)(fifth == ',')));
}

/* Goes on to the next start where a good packet may stand, over sixteen at
 * once, while so many bytes are left that all of those are decided.  Gives
 * whether there is one. */
static inline int skip_to_marks(struct walk *w)
{
    for (; w->n - w->p >= BLOCK + LONGEST_REPORT; w->p += BLOCK) {
        block near = packets_near(w->s + w->p);

        if (any_set(near)) {
            w->p += first_set(near);
            return 1;
        }
    }
    return 0;
}

/* Begun reports that were skipped had to be seen whole before what stands at p
 * or behind it can be handed out: looks back for the last of them, down to
 * where the walk began.  A comma makes no earlier one end behind it, for it
 * starts at least four bytes further on.  One that a closed stretch cuts off
 * was not waited for. */
static void see_reports(struct walk *w, size_t from)
{
    size_t i = w->n < REPORT_LENGTH ? 0 : w->n - REPORT_LENGTH + 1, whole;

    for (i = i < w->p ? i : w->p; i-- > from && i + LONGEST_REPORT > w->p + SHORT_PACKET; )
        if (half_at(w->s + i) == REPORT_MARKS) {
            whole = i + report_length(w->s[i + BEHIND_SUM]);
            if (w->seen < whole && whole <= w->n)
                w->seen = whole;
            return;
        }
}

/* Where fewer are left, the byte behind the marks is looked at first: unless it
 * is a mark itself, four starts are settled at once. */
static inline void walk_packets(struct walk *w, int64_t *row)
{
    size_t from = w->p;

    while (w->p < w->until) {
        if (w->n - w->p < 4) {
            walk_marks(w);
            return;
        }
        if (!skip_to_marks(w)) {
            const uint8_t *s = w->s + w->p;

            if (s[3] == 0xAA || s[0] != 0xAA || s[1] != 0xAA || s[2] != 0xAA) {
                w->p += s[3] == 0xAA ? 1 : 4;
                continue;
            }
        }
        if (ends_at_packet(w, row)) {
            if (w->length == SHORT_PACKET)
                see_reports(w, from);
            return;
        }
        w->p += 4;
    }
}

/* ---- Family 2 ----------------------------------------------------------- */

/* Whether the walk ends at p, where a dollar sign stands.  If not, it has gone
 * over the bytes seen to be payload, for none of them is a dollar sign. */
static inline int ends_at_sentence(struct walk *w, int64_t *row)
{
    const uint8_t *s = w->s + w->p;
    size_t left = w->n - w->p, end;

    w->length = read_written(s, left, row);
    if (w->length > 0)
        return 1;
    end = text_end(s, 1, left < LONGEST_PAYLOAD + 2 ? left : LONGEST_PAYLOAD + 2, of_sentence);
    if (end < LONGEST_PAYLOAD + 2) {
        if (end == left || (s[end] == '*' && left - end <= BEHIND_STAR)) {
            if (!w->closed)
                return 1;
        } else if (s[end] == '*' && read_sentence(s, end, row)) {
            w->length = end + 1 + BEHIND_STAR;
            return 1;
        }
    }
    w->p += end;
    return 0;
}

/* At which of the sixteen starts from s on a good sentence may stand, as far
 * as its first eight bytes tell. */
static inline block sentences_near(const uint8_t *s)
{
    return (block)(block_at(s) == '$') & (block)(block_at(s + 1) == 'A')
         & (block)(block_at(s + 2) == 'P') & (block)(block_at(s + 3) == 'A')
         & (block)(block_at(s + 5) - '0' <= 9) & (block)(block_at(s + 7) != '$');
}

/* Goes on to the next of them in the same way. */
static inline int skip_to_name(struct walk *w)
{
    for (; w->n - w->p >= BLOCK + LONGEST_SENTENCE; w->p += BLOCK) {
        block near = sentences_near(w->s + w->p);

        if (any_set(near)) {
            w->p += first_set(near);
            return 1;
        }
    }
    return 0;
}

static inline void walk_sentences(struct walk *w, int64_t *row)
{
    while (w->p < w->until) {
        if (!skip_to_name(w) && w->s[w->p] != '$')
            w->p++;
        else if (ends_at_sentence(w, row))
            return;
    }
}

/* ---- Family 4 ----------------------------------------------------------- */

/* Whether the walk ends at p, where a caret stands.  If not, it has gone over
 * the bytes seen to be text, for none of them is a caret. */
static inline int ends_at_message(struct walk *w, int64_t *row)
{
    const uint8_t *s = w->s + w->p;
    size_t left = w->n - w->p, most = left < LONGEST_MESSAGE ? left : LONGEST_MESSAGE;
    size_t end = text_end(s, 1, most, of_message);

    if (end == left && left < LONGEST_MESSAGE) {
        if (!w->closed)
            return 1;
    } else if (end < most && s[end] == ';' && read_message(s, end, row)) {
        w->length = end + 1;
        return 1;
    }
    w->p += end;
    return 0;
}

/* Goes on to the next caret, over sixteen bytes at once while so many are left. */
static inline void skip_to_caret(struct walk *w)
{
    for (; w->n - w->p >= BLOCK; w->p += BLOCK) {
        block near = (block)(block_at(w->s + w->p) == '^');

        if (any_set(near)) {
            w->p += first_set(near);
            return;
        }
    }
    while (w->p < w->n && w->s[w->p] != '^')
        w->p++;
}

static inline void walk_messages(struct walk *w, int64_t *row)
{
    while (w->p < w->until) {
        if (w->s[w->p] != '^')
            skip_to_caret(w);
        else if (ends_at_message(w, row))
            return;
    }
}

static inline void walk(struct walk *w, unsigned family, int64_t *row)
{
    if (family == PACKETS)
        walk_packets(w, row);
    else if (family == SENTENCES)
        walk_sentences(w, row);
    else
        walk_messages(w, row);
}

/* ---- Families 1, 2 and 4 ------------------------------------------------ */

/* Answers after a walk over a stretch of which the first count bytes were held
 * and others were dropped before; n were offered. */
static inline uint32_t answer(amp_reader *reader, struct walk *w, size_t count, size_t dropped,
                              size_t n, int64_t *row)
{
    size_t end = w->p + w->length, skip = dropped + w->p;

    if (w->length > 0) {
        if (w->seen < end)
            w->seen = end;
        if (w->seen < count)
            w->seen = count;
        hold(reader, w->s + end, w->seen - end);
        return hand_out(reader, skip, w->length, w->seen - count, row);
    }
    hold(reader, w->s + w->p, w->n - w->p);
    reader->at += (uint32_t)skip;
    reader->skipped += (uint32_t)skip;
    return lay(row, w->closed ? AMP_DONE : AMP_MORE, n);
}

uint32_t settle_offered(amp_reader *reader, const uint8_t *offered, size_t n,
                        size_t p, int64_t *row)
{
    struct walk w = {offered, n, p, n, 0, 0, 0};

    walk(&w, reader->family, row);
    return answer(reader, &w, 0, reader->count, n, row);
}

static uint32_t settle_walk(amp_reader *reader, const uint8_t *offered, size_t n, int64_t *row)
{
    uint8_t joined[HELD + LONGEST_SENTENCE];
    size_t count = reader->count, lead = n < LONGEST_SENTENCE ? n : LONGEST_SENTENCE;
    struct walk w = {offered, n, 0, n, 0, 0, reader->closed};
    struct walk first = {joined, count + lead, 0, count, 0, 0, reader->closed};

    if (count > 0) {
        memcpy(joined, reader->held, HELD - BLOCK);
        move_block(joined + HELD - BLOCK, reader->held + HELD - BLOCK);
        move_bytes(joined + count, offered, lead);
        if (lead == n)
            first.until = first.n;
        walk(&first, reader->family, row);
        if (first.length > 0 || first.p < count || lead == n)
            return answer(reader, &first, count, 0, n, row);
        if (reader->family == PACKETS)
            see_reports(&first, 0);
        w.p = first.p - count;
        w.seen = first.seen > count ? first.seen - count : 0;
    }
    walk(&w, reader->family, row);
    return answer(reader, &w, 0, count, n, row);
}

/* ---- Family 3 ----------------------------------------------------------- */

/* Sixteen starts are looked at together, and reach over so many bytes. */
#define WINDOW (BLOCK + SHORT_PACKET - 1)

/* The first of sixteen starts at which a good command stands; 16 if there is
 * none.  No mark is a code: that turns away a packet that was broken off before
 * its code where the next begins. */
static inline size_t first_command(const uint8_t *s)
{
    block fit = (block)(block_at(s) == 0x55) & (block)(block_at(s + 1) == 0x55)
              & (block)(block_at(s + 2) == 0x55) & (block)(block_at(s + 3) == 1)
              & (block)(block_at(s + 4) == block_at(s + 5)) & (block)(block_at(s + 4) != 0x55);
    size_t i;

    if (!any_set(fit))
        return BLOCK;
    for (i = first_set(fit); i < BLOCK; i++)
        if (half_at(s + i) == COMMAND_MARKS && s[i + 4] == s[i + 5]
            && (code_uses[s[i + 4]] & COMMANDED))
            break;
    return i;
}

/* The last bytes, a window or less: those that are not there are noughts, and a
 * nought is no code, so that nothing is found that reaches over them.  p bytes
 * stand before the window. */
static uint32_t settle_window(amp_reader *reader, const uint8_t *window, size_t have, size_t p,
                              size_t n, int64_t *row)
{
    size_t i = first_command(window), many = have < 7 ? have : 7;
    uint64_t word = word_at(window + (have - many));

    if (i < BLOCK)
        return give_short(reader, p + i, AMP_COMMAND, window[i + 4], row);
    return keep_begun(reader, word << 8 * (7 - many) << 8, COMMAND_MARKS, COMMAND_MARKS, p + have,
                      n, row);
}

static uint32_t settle_commands(amp_reader *reader, const uint8_t *offered, size_t n, int64_t *row)
{
    uint8_t window[WINDOW + 3] = {0};
    size_t count = reader->count, have = count + n, p = 0, i;

    if (count > 0 || n <= WINDOW) {
        size_t lead = have > WINDOW ? WINDOW - count : n;

        move_few(window, reader->held, count);
        move_bytes(window + count, offered, lead);
        if (have <= WINDOW)
            return settle_window(reader, window, have, 0, n, row);
        i = first_command(window);
        if (i < BLOCK)
            return give_short(reader, i, AMP_COMMAND, window[i + 4], row);
        p = BLOCK;
    }
    for (; have - p > WINDOW; p += BLOCK) {
        const uint8_t *s = offered + (p - count);

        i = first_command(s);
        if (i < BLOCK)
            return give_short(reader, p + i, AMP_COMMAND, s[i + 4], row);
    }
    memset(window, 0, sizeof window);
    move_bytes(window, offered + (p - count), have - p);
    return settle_window(reader, window, have - p, p, n, row);
}

/* ---- Any call ----------------------------------------------------------- */

static uint32_t settle_wide(amp_reader *reader, const uint8_t *offered, size_t n, int64_t *row)
{
    if (reader->family != COMMANDS)
        return settle_walk(reader, offered, n, row);
    if (!reader->closed) {
        if (!is_clear(reader->held, 8))
            memset(reader->held + 8, 0, HELD - 8);
        return settle_commands(reader, offered, n, row);
    }
    reader->at += reader->count;
    reader->skipped += reader->count;
    clear_all(reader);
    return lay(row, AMP_DONE, 0);
}

static size_t values_of_sentence(int64_t number)
{
    return number == 2 ? AMP_02_VALUES : number == 3 ? AMP_03_VALUES
         : number == 5 ? AMP_05_VALUES : 0;
}

static size_t values_of_response(int64_t letters)
{
    return letters == AMP_CC ? AMP_CC_VALUES : letters == AMP_RV ? 2 : letters != AMP_FT;
}

static size_t places_of(const int64_t *row)
{
    switch (row[AMP_KIND]) {
    case AMP_STATUS:
        return AMP_VALUES + AMP_STATUS_VALUES;
    case AMP_SENTENCE:
        return AMP_VALUES + values_of_sentence(row[AMP_CODE]);
    case AMP_RESPONSE:
        return AMP_VALUES + values_of_response(row[AMP_CODE]);
    case AMP_OTHER:
        return AMP_VALUES + AMP_OTHER_VALUES;
    default:
        return AMP_VALUES;
    }
}

/* A row that may turn out too short: the call is made on copies, and what it
 * did is kept if there is room for its answer. */
static uint32_t settle_narrow(amp_reader *reader, const uint8_t *offered, size_t n,
                              int64_t *row, size_t row_len)
{
    amp_reader other = *reader;
    int64_t wide[AMP_ROW];

    settle_wide(&other, offered, n, wide);
    if (row_len < places_of(wide))
        return AMP_NO_ROOM;
    memcpy(row, wide, places_of(wide) * sizeof *row);
    *reader = other;
    return 0;
}

uint32_t settle(amp_reader *reader, const uint8_t *offered, size_t n,
                int64_t *row, size_t row_len)
{
    if (reader->family < PACKETS || reader->family > MESSAGES)
        return AMP_NO_FAMILY;
    if (reader->count > limits[reader->family])
        return AMP_HOLDS_TOO_MUCH;
    if (reader->closed && n > 0)
        return AMP_CLOSED;
    if (row_len < AMP_ROW)
        return settle_narrow(reader, offered, n, row, row_len);
    return settle_wide(reader, offered, n, row);
}
