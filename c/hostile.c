/* Calls the library as the worst of callers would, who keeps nothing but what the header's head asks:
 * readers of any 144 bytes, families, codes and places of any number, values at the ends of 64 bits,
 * slices of any length that often end or begin where memory does, frames with a byte spoiled. After each
 * call it looks at what came back and at what else has changed.
 *
 *     hostile [SEED [CALLS]]
 *
 * The same seed makes the same calls. The first wrong calls are printed, and a last line 'N calls, M
 * wrong'; the status is 0 only if none is. A call that touches memory beyond what it was lent is the last. */
#include "hostile.h"

/* ---- amp_fresh, amp_close ------------------------------------------------------------------- */

static void try_fresh(void)
{
    amp_reader *reader, fresh;
    uint32_t family = some_family(), number;

    begin(FRESH);
    reader = lend(sizeof *reader, 4);
    some_reader(reader);
    seal();
    number = amp_fresh(reader, family);
    note(number);
    EXPECT(number == (is_family(family) ? 0 : AMP_NO_FAMILY));
    if (number == 0) {
        memset(&fresh, 0, sizeof fresh);
        fresh.family = (uint8_t)family;
        EXPECT(memcmp(reader, &fresh, sizeof fresh) == 0);
        allow(reader, sizeof *reader);
        keep(reader);
    }
    finish();
}

static void try_close(void)
{
    amp_reader *reader, was;
    uint32_t number;

    begin(CLOSE);
    reader = lend(sizeof *reader, 4);
    some_reader(reader);
    was = *reader;
    seal();
    number = amp_close(reader);
    note(number);
    EXPECT(number == (!is_family(was.family) ? AMP_NO_FAMILY
                      : was.count > limit_of(was.family) ? AMP_HOLDS_TOO_MUCH : 0));
    if (number == 0) {
        was.closed = 1;
        memset(was.held + was.count, 0, sizeof was.held - was.count);
        EXPECT(memcmp(reader, &was, sizeof was) == 0);
        allow(reader, sizeof *reader);
        keep(reader);
    }
    finish();
}

/* ---- amp_feed ------------------------------------------------------------------------------- */

/* How long the row is, is had from the same call on another reader, with room for any. */
static uint32_t feed_refusal(const amp_reader *was, const uint8_t *bytes, size_t n, size_t room)
{
    amp_reader other = *was;
    int64_t row[AMP_ROW];

    if (!is_family(was->family))
        return AMP_NO_FAMILY;
    if (was->count > limit_of(was->family))
        return AMP_HOLDS_TOO_MUCH;
    if (was->closed != 0 && n > 0)
        return AMP_CLOSED;
    EXPECT(amp_feed(&other, bytes, n, row, AMP_ROW) == 0);
    return room * sizeof *row < row_size(row) ? AMP_NO_ROOM : 0;
}

/* No byte is lost or counted twice: those held and taken are skipped, handed out, or held. */
static void judge_places(const amp_reader *was, const amp_reader *reader, const int64_t *row)
{
    uint32_t gone = reader->at - was->at, start = (uint32_t)row[AMP_START];

    EXPECT((int64_t)was->count + row[AMP_TAKEN] == (int64_t)gone + reader->count);
    if (!is_frame(row)) {
        EXPECT(reader->skipped == (uint32_t)(was->skipped + gone));
        EXPECT(row[AMP_CODE] == 0 && row[AMP_START] == 0 && row[AMP_SKIPPED] == 0);
        EXPECT(row[AMP_LENGTH] == 0);
        return;
    }
    EXPECT(frame_of(was->family, row));
    EXPECT(length_fits(row));
    EXPECT(row[AMP_START] == (int64_t)start && (uint32_t)(start - was->at) <= gone);
    EXPECT((uint32_t)(start + (uint32_t)row[AMP_LENGTH]) == reader->at);
    EXPECT(row[AMP_SKIPPED] == (int64_t)(uint32_t)(was->skipped + (start - was->at)));
    EXPECT(reader->skipped == 0);
}

static void judge_feed(const amp_reader *was, const amp_reader *reader, const int64_t *row, size_t n)
{
    int64_t kind = row[AMP_KIND];

    EXPECT(reader->family == was->family && reader->closed == was->closed);
    EXPECT(reader->count <= limit_of(was->family));
    EXPECT(unused_are_zero(reader));
    EXPECT(row[AMP_TAKEN] >= 0 && row[AMP_TAKEN] <= (int64_t)n);
    EXPECT(kind >= AMP_ACK && kind <= AMP_OTHER);
    EXPECT(kind != AMP_MORE || (row[AMP_TAKEN] == (int64_t)n && was->closed == 0));
    EXPECT(kind != AMP_DONE || (was->closed != 0 && reader->count == 0));
    judge_places(was, reader, row);
}

static void try_feed(void)
{
    size_t n = some_length(400), room = some_row_room();
    amp_reader *reader, was;
    uint32_t number;
    uint8_t *bytes;
    int64_t *row;

    begin(FEED);
    reader = lend(sizeof *reader, 4);
    some_reader(reader);
    if (reader->closed != 0 && !once_in(4))
        n = 0;
    bytes = lend(n, 1);
    row = lend(room * sizeof *row, sizeof *row);
    some_bytes(bytes, n, reader->family);
    was = *reader;
    seal();
    number = amp_feed(reader, bytes, n, row, room);
    note(number);
    EXPECT(number == feed_refusal(&was, bytes, n, room));
    if (number == 0) {
        judge_feed(&was, reader, row, n);
        allow(reader, sizeof *reader);
        allow(row, row_size(row));
        keep(reader);
    }
    finish();
}

/* ---- amp_read ------------------------------------------------------------------------------- */

/* A whole frame as the bytes, mostly; often with a byte spoiled, or one too few. */
static uint8_t *lend_frame(uint32_t family, size_t *n)
{
    const uint8_t *frame = some_frame(near_family(family), n);
    uint8_t *bytes;

    if (once_in(8) && *n > 0)
        *n -= 1;
    bytes = lend(*n, 1);
    memcpy(bytes, frame, *n);
    spoil(bytes, *n);
    return bytes;
}

static void judge_read(uint32_t family, const uint8_t *bytes, size_t n, const int64_t *row)
{
    size_t start = 77;

    EXPECT(frame_of(family, row));
    EXPECT(row[AMP_TAKEN] == 0 && row[AMP_START] == 0);
    EXPECT(row[AMP_SKIPPED] == 0 && row[AMP_LENGTH] == (int64_t)n);
    EXPECT(length_fits(row));
    if (row[AMP_KIND] == AMP_STATUS && n >= 75)
        EXPECT(row[AMP_VALUES + AMP_STATUS_COMMA] == (bytes[73] == ','));
    EXPECT(amp_next(family, bytes, n, 0, row[AMP_KIND] == AMP_STATUS, &start) == n && start == 0);
}

/* How long the row is, is had here too from the same call with room for any. */
static void judge_read_number(uint32_t number, uint32_t family, const uint8_t *bytes, size_t n, size_t room)
{
    int64_t row[AMP_ROW];
    uint32_t other = amp_read(family, bytes, n, row, AMP_ROW);

    EXPECT(is_family(family) ? other == 0 || other == AMP_NOT_GOOD : other == AMP_NO_FAMILY);
    EXPECT(number == (other == 0 && room * sizeof *row < row_size(row) ? AMP_NO_ROOM : other));
}

static void try_read(void)
{
    uint32_t family = some_family(), number;
    size_t n = some_length(200), room = some_row_room();
    uint8_t *bytes;
    int64_t *row;

    begin(READ);
    if (once_in(4)) {
        bytes = lend(n, 1);
        some_bytes(bytes, n, family);
    } else {
        bytes = lend_frame(family, &n);
    }
    row = lend(room * sizeof *row, sizeof *row);
    seal();
    number = amp_read(family, bytes, n, row, room);
    note(number);
    judge_read_number(number, family, bytes, n, room);
    if (number == 0) {
        judge_read(family, bytes, n, row);
        allow(row, row_size(row));
    }
    finish();
}

/* ---- amp_list ------------------------------------------------------------------------------- */

#define LONGEST 65536u

/* Now and then a capture about as long as one may be. */
static size_t capture_length(void)
{
    return once_in(4000) ? LONGEST - 3 + some_below(6) : some_length(600);
}

/* More places than a capture can have frames. */
static uint32_t places[LONGEST / 3 + 1];

static void judge_list(uint32_t family, const uint8_t *s, size_t n, const uint32_t *starts, size_t count)
{
    size_t i, first = 0, size = amp_next(family, s, n, 0, 0, &first), least = least_of(family);

    EXPECT((count > 0) == (size > 0));
    EXPECT(count == 0 || starts[0] == first);
    for (i = 1; i < count; i++)
        if (starts[i] < starts[i - 1] + least)
            EXPECT(starts[i] >= starts[i - 1] + least);
    EXPECT(count == 0 || starts[count - 1] + least <= n);
}

static void try_list(void)
{
    uint32_t family = some_family(), number, *starts;
    size_t n = capture_length(), room = once_in(2) ? some_below(4) : some_below(n / 3 + 20), all = 0, *count;
    uint8_t *capture;

    begin(LIST);
    capture = lend(n, 1);
    some_bytes(capture, n, family);
    starts = lend(room * sizeof *starts, sizeof *starts);
    count = lend(sizeof *count, sizeof *count);
    number = amp_list(family, capture, n, places, sizeof places / sizeof *places, &all);
    EXPECT(number == (!is_family(family) ? AMP_NO_FAMILY : n > LONGEST ? AMP_TOO_LONG : 0));
    seal();
    if (number == 0 && all > room)
        number = AMP_NO_ROOM;
    EXPECT(amp_list(family, capture, n, starts, room, count) == number);
    note(number);
    if (number == 0) {
        EXPECT(*count == all && memcmp(starts, places, all * sizeof *starts) == 0);
        judge_list(family, capture, n, starts, all);
        allow(starts, all * sizeof *starts);
        allow(count, sizeof *count);
    }
    finish();
}

/* ---- amp_next ------------------------------------------------------------------------------- */

static void judge_next(uint32_t family, const uint8_t *s, size_t place, uint32_t reports,
                       size_t start, size_t size)
{
    int64_t row[AMP_ROW];

    EXPECT(start >= place);
    EXPECT(amp_read(family, s + start, size, row, AMP_ROW) == 0);
    EXPECT(reports == 0 || row[AMP_KIND] == AMP_STATUS);
}

static void try_next(void)
{
    uint32_t family = some_family(), reports = once_in(2) ? 0 : (uint32_t)chance() >> some_below(32);
    size_t n = capture_length(), place = once_in(10) ? (size_t)chance() : some_below(n + 2);
    size_t size, *start;
    uint8_t *capture;

    begin(NEXT);
    capture = lend(n, 1);
    some_bytes(capture, n, family);
    start = lend(sizeof *start, sizeof *start);
    seal();
    size = amp_next(family, capture, n, place, reports, start);
    note(size > 0);
    EXPECT(size <= n);
    if (size > 0 && size <= n) {
        EXPECT(is_family(family) && n <= LONGEST);
        EXPECT(*start <= n - size);
        if (*start <= n - size)
            judge_next(family, capture, place, reports, *start, size);
        allow(start, sizeof *start);
    }
    finish();
}

/* ---- amp_write ------------------------------------------------------------------------------ */

/* Replaces some of a row's values, its kind or its code; gives whether it did. */
static int spoil_record(int64_t *row, size_t many)
{
    size_t values = once_in(2) || many == 0 ? 0 : 1 + some_below(3), i;
    int kind = once_in(10), code = once_in(10);

    for (i = 0; i < values; i++)
        row[AMP_VALUES + some_below(many)] = some_value();
    if (kind)
        row[AMP_KIND] = once_in(4) ? (int64_t)(uint32_t)chance() : (int64_t)some_below(11);
    if (code)
        row[AMP_CODE] = (int64_t)some_code();
    return values > 0 || kind || code;
}

/* A kind, a code and values that can be written, out of a good frame; often spoiled then. */
static int some_record(int64_t *row, size_t many)
{
    uint32_t family = 1 + (uint32_t)some_below(4);
    size_t n;
    const uint8_t *frame = some_frame(family, &n);

    EXPECT(amp_read(family, frame, n, row, AMP_ROW) == 0);
    return spoil_record(row, many);
}

/* The refusal, as far as it can be told without the rules of each field. */
static void judge_refusal(uint32_t number, const int64_t *row, size_t many, size_t room, int spoiled)
{
    uint32_t kind = (uint32_t)row[AMP_KIND], code = (uint32_t)row[AMP_CODE];
    size_t length = written_length(row);

    if (kind == AMP_ACK || kind == AMP_COMMAND)
        EXPECT(number == (!is_code(kind, code) ? AMP_NO_CODE : room < 6 ? AMP_NO_ROOM : 0));
    else if (length == 0 || many < values_of(kind, code))
        EXPECT(number == AMP_NO_RECORD);
    else if (!spoiled)
        EXPECT(number == (room < length ? AMP_NO_ROOM : 0));
    else
        EXPECT(number == AMP_NO_RECORD || number == (room < length ? AMP_NO_ROOM : 0));
}

/* What was written reads back as what was given. */
static void judge_written(const int64_t *row, const uint8_t *out, size_t length)
{
    uint32_t kind = (uint32_t)row[AMP_KIND], code = (uint32_t)row[AMP_CODE];
    uint32_t family = kind == AMP_SENTENCE ? 2 : kind == AMP_COMMAND ? 3 : kind >= AMP_QUESTION ? 4 : 1;
    int64_t back[AMP_ROW];

    EXPECT(length == written_length(row));
    EXPECT(amp_read(family, out, length, back, AMP_ROW) == 0);
    EXPECT(back[AMP_KIND] == row[AMP_KIND]);
    EXPECT(back[AMP_CODE] == (kind == AMP_STATUS ? 0 : row[AMP_CODE]));
    EXPECT(memcmp(back + AMP_VALUES, row + AMP_VALUES, values_of(kind, code) * sizeof *row) == 0);
}

/* More values than any kind has, so that some stand behind those that are looked at. */
#define MOST_VALUES (AMP_STATUS_VALUES + 6)

static void try_write(void)
{
    size_t many = once_in(6) ? some_below(MOST_VALUES) : AMP_STATUS_VALUES;
    size_t room = once_in(4) ? some_below(77) : once_in(8) ? some_below(22) : 75 + some_below(20);
    int64_t row[AMP_VALUES + MOST_VALUES], *values;
    uint32_t number;
    size_t *length;
    uint8_t *out;
    int spoiled;

    begin(WRITE);
    fill(row, sizeof row);
    spoiled = some_record(row, many);
    out = lend(room, 1);
    values = lend(many * sizeof *values, sizeof *values);
    length = lend(sizeof *length, sizeof *length);
    memcpy(values, row + AMP_VALUES, many * sizeof *values);
    seal();
    number = amp_write((uint32_t)row[AMP_KIND], (uint32_t)row[AMP_CODE], values, many, out, room, length);
    note(number);
    judge_refusal(number, row, many, room, spoiled);
    if (number == 0) {
        judge_written(row, out, *length);
        allow(out, *length);
        allow(length, sizeof *length);
    }
    finish();
}

static void try_enable(void)
{
    size_t room = some_below(8), *length;
    uint32_t number;
    uint8_t *out;

    begin(ENABLE);
    out = lend(room, 1);
    length = lend(sizeof *length, sizeof *length);
    seal();
    number = amp_write_enable(out, room, length);
    note(number);
    EXPECT(number == (room < 3 ? AMP_NO_ROOM : 0));
    if (number == 0) {
        EXPECT(*length == 3 && memcmp(out, "+++", 3) == 0);
        allow(out, 3);
        allow(length, sizeof *length);
    }
    finish();
}

/* ---- amp_stamp_order ------------------------------------------------------------------------ */

static void try_stamps(void)
{
    uint32_t a = (uint32_t)chance(), b = (uint32_t)chance(), ahead, number;

    if (once_in(2))
        b = a + (once_in(2) ? UINT32_C(0x80000000) : 0) + (uint32_t)some_below(5) - 2;
    ahead = b - a;
    begin(STAMPS);
    number = amp_stamp_order(a, b);
    note(number);
    EXPECT(number == (ahead == 0 ? AMP_EQUAL : ahead < UINT32_C(0x80000000) ? AMP_EARLIER
                      : ahead > UINT32_C(0x80000000) ? AMP_LATER : AMP_CANNOT_SAY));
}

/* ---- All of them ---------------------------------------------------------------------------- */

/* How often each is called: those with the most to get wrong most often. */
static void (*const tries[])(void) = {
    try_feed, try_feed, try_feed, try_feed, try_feed, try_close, try_fresh, try_read, try_read,
    try_read, try_write, try_write, try_write, try_list, try_list, try_next, try_next, try_enable,
    try_stamps
};

int main(int argc, char **argv)
{
    unsigned long most = argc > 2 ? strtoull(argv[2], NULL, 10) : 3200000;

    seed = state = argc > 1 ? strtoull(argv[1], NULL, 10) : 1;
    if (!make_arena())
        return 2;
    make_pool();
    printf("seed %lu\n", (unsigned long)seed);
    while (calls < most)
        tries[some_below(sizeof tries / sizeof *tries)]();
    print_numbers();
    printf("%lu calls, %lu wrong\n", calls, wrong);
    return wrong == 0 ? 0 : 1;
}
