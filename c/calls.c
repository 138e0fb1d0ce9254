/* Calls every function of the header with arguments whose results are known: the cases of the bench
 * sheet, both forms of a report, one that an amplifier sent, the sentences that the Alpha's paper prints,
 * messages of the KPA1500, each number for no, and what has to be left alone.
 * A line for each check that fails, a last line 'N checks, M wrong', and status 0 only if none is. */
#include "calls.h"

static unsigned checks, wrong;

void check(int right, const char *what)
{
    checks++;
    if (!right) {
        wrong++;
        printf("wrong: %s\n", what);
    }
}

/* ---- Values ---------------------------------------------------------------------------------- */

const int64_t values_5[AMP_STATUS_VALUES] = {
    20, 'S', 'R', 'x', 2, 3, 2, 't', 0, 'M', 0, 0, 0, 0, 0, 31, 29, 30, 'N', 'N', 0
};
const int64_t comma_5[AMP_STATUS_VALUES] = {
    20, 'S', 'R', 'x', 2, 3, 2, 't', 0, 'M', 0, 0, 0, 0, 0, 31, 29, 30, 'N', 'N', 1
};
static const int64_t recorded[AMP_STATUS_VALUES] = {
    13, 'S', 'R', 'A', 1, 7, 2, 'a', 0, 'M', 0, 0, 0, 0, 0, 77, 0, 0, 'N', 'N', 1
};
const int64_t values_7[AMP_05_VALUES] = {1, 1, 1, 8, 1, 11, 3, 4, 0, 42, 1};
static const int64_t values_02[] = {
    15017, 10, 2590, 3169, 768, 230, 96, 57, 1, 6, 1, 0, 15721
};
static const int64_t values_03[] = {499, 121, 240, 121, 389, 2370, 0, 5, 280};

/* ---- Lent memory ---------------------------------------------------------------------------- */

int64_t row[AMP_ROW + 2];
static uint8_t out[160];
static uint32_t starts[65536];

void clear_row(void)
{
    size_t i;

    for (i = 0; i < AMP_ROW + 2; i++)
        row[i] = UNTOUCHED;
}

int row_is(const int64_t *head, const int64_t *values, size_t many)
{
    size_t i;

    if (memcmp(row, head, AMP_VALUES * sizeof *row) != 0)
        return 0;
    if (many > 0 && memcmp(row + AMP_VALUES, values, many * sizeof *row) != 0)
        return 0;
    for (i = AMP_VALUES + many; i < AMP_ROW + 2; i++)
        if (row[i] != UNTOUCHED)
            return 0;
    return 1;
}

int row_untouched(void)
{
    size_t i;

    for (i = 0; i < AMP_ROW + 2; i++)
        if (row[i] != UNTOUCHED)
            return 0;
    return 1;
}

/* ---- What C sees of the types --------------------------------------------------------------- */

static void layout(void)
{
    check(sizeof(amp_reader) == 144, "a reader has 144 bytes");
    check(offsetof(amp_reader, family) == 0, "family at 0");
    check(offsetof(amp_reader, closed) == 1, "closed at 1");
    check(offsetof(amp_reader, count) == 2, "count at 2");
    check(offsetof(amp_reader, held) == 3, "held at 3");
    check(offsetof(amp_reader, at) == 136, "at at 136");
    check(offsetof(amp_reader, skipped) == 140, "skipped at 140");
    check(AMP_VALUES + AMP_STATUS_VALUES == AMP_ROW, "a report is the longest row");
    check(AMP_ROW == 27 && AMP_STATUS_COMMA == 20, "the comma is a report's last value");
    check(AMP_02_VALUES == 13 && AMP_03_VALUES == 9 && AMP_05_VALUES == 11, "values of sentences");
}

/* ---- amp_read ------------------------------------------------------------------------------- */

void does_not_read(const char *what, uint32_t family, const uint8_t *bytes, size_t n,
                   size_t room, uint32_t number)
{
    clear_row();
    check(amp_read(family, bytes, n, row, room) == number, what);
    check(row_untouched(), what);
}

/* The row has just the room that it needs; with a place less it is refused. */
void reads(const char *what, uint32_t family, const uint8_t *bytes, size_t n,
           int64_t kind, int64_t code, const int64_t *values, size_t many)
{
    int64_t head[AMP_VALUES] = {0};

    head[AMP_KIND] = kind;
    head[AMP_CODE] = code;
    head[AMP_LENGTH] = (int64_t)n;
    does_not_read(what, family, bytes, n, AMP_VALUES + many - 1, AMP_NO_ROOM);
    clear_row();
    check(amp_read(family, bytes, n, row, AMP_VALUES + many) == 0, what);
    check(row_is(head, values, many), what);
}

static void reading(void)
{
    reads("case 5", 1, SLICE(CASE_5), AMP_STATUS, 0, values_5, AMP_STATUS_VALUES);
    reads("case 7", 2, SLICE(CASE_7), AMP_SENTENCE, 5, values_7, AMP_05_VALUES);
    reads("printed 02", 2, SLICE(PRINTED_02), AMP_SENTENCE, 2, values_02, AMP_02_VALUES);
    reads("printed 03", 2, SLICE(PRINTED_03), AMP_SENTENCE, 3, values_03, AMP_03_VALUES);
    reads("printed 11", 2, SLICE(PRINTED_11), AMP_SENTENCE, 11, NULL, 0);
    reads("ack 0D", 1, SLICE("\xAA\xAA\xAA\x01\x0D\x0D"), AMP_ACK, 0x0D, NULL, 0);
    reads("case 10, family 3", 3, SLICE("\x55\x55\x55\x01\x90\x90"), AMP_COMMAND, 0x90, NULL, 0);
    does_not_read("case 10, family 1", 1, SLICE("\xAA\xAA\xAA\x01\x90\x90"), AMP_ROW, AMP_NOT_GOOD);
    does_not_read("case 6", 1, SLICE(CASE_6), AMP_ROW, AMP_NOT_GOOD);
    does_not_read("case 8", 2, SLICE(CASE_8), AMP_ROW, AMP_NOT_GOOD);
    does_not_read("case 9 as a whole", 2, SLICE(CASE_9), AMP_ROW, AMP_NOT_GOOD);
    does_not_read("no bytes", 1, NOTHING, AMP_ROW, AMP_NOT_GOOD);
    does_not_read("family 0", 0, SLICE(CASE_5), AMP_ROW, AMP_NO_FAMILY);
    does_not_read("family 5", 5, SLICE(CASE_5), AMP_ROW, AMP_NO_FAMILY);
    does_not_read("family 257", 257, SLICE(CASE_5), AMP_ROW, AMP_NO_FAMILY);
    does_not_read("no family before no row", 9, SLICE(CASE_5), 0, AMP_NO_FAMILY);
    does_not_read("not good before no row", 1, SLICE(CASE_6), 0, AMP_NOT_GOOD);
    does_not_read("no row", 1, SLICE(CASE_5), 0, AMP_NO_ROOM);
}

/* Both forms of a report, told apart by the byte behind the two check bytes, and what has neither. */
static void reading_line_ends(void)
{
    reads("a comma", 1, SLICE(COMMA_5), AMP_STATUS, 0, comma_5, AMP_STATUS_VALUES);
    reads("the recorded report", 1, SLICE(RECORDED), AMP_STATUS, 0, recorded, AMP_STATUS_VALUES);
    reads("the same in spaces", 1, SLICE(REWRITTEN), AMP_STATUS, 0, recorded, AMP_STATUS_VALUES);
    does_not_read("73 bytes", 1, SLICE(FRONT_5), AMP_ROW, AMP_NOT_GOOD);
    does_not_read("a comma, 74 bytes", 1, SLICE(FRONT_5 ","), AMP_ROW, AMP_NOT_GOOD);
    does_not_read("a comma, 75 bytes", 1, SLICE(FRONT_5 ",\x0D"), AMP_ROW, AMP_NOT_GOOD);
    does_not_read("a comma, 77 bytes", 1, SLICE(COMMA_5 "\x0A"), AMP_ROW, AMP_NOT_GOOD);
    does_not_read("a comma, 0D 0D", 1, SLICE(FRONT_5 ",\x0D\x0D"), AMP_ROW, AMP_NOT_GOOD);
    does_not_read("a comma, 0A 0D", 1, SLICE(FRONT_5 ",\x0A\x0D"), AMP_ROW, AMP_NOT_GOOD);
    does_not_read("a comma, 0D AA", 1, SLICE(FRONT_5 ",\x0D\xAA"), AMP_ROW, AMP_NOT_GOOD);
    does_not_read("a comma in no place", 1, SLICE(CASE_5 ","), AMP_ROW, AMP_NOT_GOOD);
    does_not_read("a byte that is no comma", 1, SLICE(FRONT_5 "-\x0D\x0A"), AMP_ROW, AMP_NOT_GOOD);
    does_not_read("two commas", 1, SLICE(FRONT_5 ",,\x0D\x0A"), AMP_ROW, AMP_NOT_GOOD);
    does_not_read("0D instead", 1, SLICE(FRONT_5 "\x0D\x0D\x0A"), AMP_ROW, AMP_NOT_GOOD);
}

/* ---- Cases 12 and 13, whose bytes are worked out here ---------------------------------------- */

/* A sentence APA99 with a payload of n bytes and the right sums; gives its length. */
static size_t sentence_of(uint8_t *to, size_t n)
{
    static const char digits[] = "0123456789ABCDEF";
    unsigned sum1 = 0, sum2 = 0;
    size_t i;

    memcpy(to, "$APA99,", 7);
    memset(to + 7, '~', n - 6);
    for (i = 1; i <= n; i++) {
        sum1 = (sum1 + to[i]) % 256;
        sum2 = (sum2 + sum1) % 256;
    }
    to[n + 1] = '*';
    to[n + 2] = (uint8_t)digits[sum2 / 16];
    to[n + 3] = (uint8_t)digits[sum2 % 16];
    to[n + 4] = (uint8_t)digits[sum1 / 16];
    to[n + 5] = (uint8_t)digits[sum1 % 16];
    return n + 6;
}

/* A report with these data and the right sum. */
static void report_of(uint8_t *to, const char *data)
{
    unsigned sum = 0;
    size_t i;

    memcpy(to, "\xAA\xAA\xAA\x43", 4);
    memcpy(to + 4, data, 67);
    for (i = 4; i < 71; i++)
        sum += to[i];
    to[71] = (uint8_t)(sum % 256);
    to[72] = (uint8_t)(sum / 256);
    to[73] = 0x0D;
    to[74] = 0x0A;
}

static void worked_out(void)
{
    static const int64_t small[] = {
        13, 'S', 'R', 'A', 2, 11, 2, 't', 0, 'M', 0, 0, 0, 0, 0, 31, 0, 0, 'N', 'N', 0
    };
    uint8_t bytes[160];
    size_t n = sentence_of(bytes, 128);

    reads("case 12, 128", 2, bytes, n, AMP_SENTENCE, 99, NULL, 0);
    n = sentence_of(bytes, 129);
    does_not_read("case 12, 129", 2, bytes, n, AMP_ROW, AMP_NOT_GOOD);
    report_of(bytes, ",13K,S,R,A,2,11,2t,0r,M,0000, 0.00, 0.00, 0.0, 0.0, 31,  0,000,N,N,");
    reads("case 13, 13K", 1, bytes, 75, AMP_STATUS, 0, small, AMP_STATUS_VALUES);
    report_of(bytes, ",20K,S,R,x,2,11,2t,0r,M,0000, 0.00, 0.00, 0.0, 0.0, 31, 29, 30,N,N,");
    does_not_read("case 13, 20K", 1, bytes, 75, AMP_ROW, AMP_NOT_GOOD);
}

/* ---- amp_list ------------------------------------------------------------------------------- */

void lists(const char *what, uint32_t family, const uint8_t *bytes, size_t n,
           size_t many, uint32_t first, uint32_t second)
{
    size_t count = 77;

    starts[0] = starts[1] = starts[2] = UINT32_MAX;
    check(amp_list(family, bytes, n, starts, 3, &count) == 0 && count == many, what);
    check(starts[0] == (many > 0 ? first : UINT32_MAX), what);
    check(starts[1] == (many > 1 ? second : UINT32_MAX), what);
    check(starts[2] == UINT32_MAX, what);
}

void does_not_list(const char *what, uint32_t family, const uint8_t *bytes, size_t n,
                   size_t room, uint32_t number)
{
    size_t count = 77;

    starts[0] = starts[1] = starts[2] = UINT32_MAX;
    check(amp_list(family, bytes, n, starts, room, &count) == number && count == 77, what);
    check(starts[0] == UINT32_MAX && starts[1] == UINT32_MAX && starts[2] == UINT32_MAX, what);
}

static uint8_t large[65537];

static void listing(void)
{
    lists("case 1", 1, SLICE(CASE_1), 1, 1, 0);
    lists("case 2", 1, SLICE(CASE_2), 2, 0, 6);
    lists("case 3", 1, SLICE(CASE_3), 1, 6, 0);
    lists("case 4", 1, SLICE(CASE_4), 2, 4, 10);
    lists("case 5", 1, SLICE(CASE_5), 1, 0, 0);
    lists("case 6", 1, SLICE(CASE_6), 0, 0, 0);
    lists("both forms", 1, SLICE(COMMA_5 CASE_5), 2, 0, 76);
    lists("a comma behind 75 bytes", 1, SLICE(CASE_5 "," COMMA_5), 2, 0, 76);
    lists("a comma, 75 bytes", 1, SLICE(FRONT_5 ",\x0D"), 0, 0, 0);
    lists("a comma, 75 bytes and a packet", 1, SLICE(FRONT_5 ",\x0D" ACK_9), 1, 75, 0);
    lists("a comma, 74 bytes and a packet", 1, SLICE(FRONT_5 "," ACK_9), 1, 74, 0);
    lists("case 9", 2, SLICE(CASE_9), 1, 5, 0);
    lists("case 11", 2, NOTHING, 0, 0, 0);
    lists("65,536 zeros", 3, large, 65536, 0, 0, 0);
    does_not_list("no family", 0, SLICE(CASE_2), 3, AMP_NO_FAMILY);
    does_not_list("no family before too long", 5, large, 65537, 3, AMP_NO_FAMILY);
    does_not_list("too long before no room", 1, large, 65537, 0, AMP_TOO_LONG);
    does_not_list("one place for two frames", 1, SLICE(CASE_2), 1, AMP_NO_ROOM);
    does_not_list("no place for two frames", 1, SLICE(CASE_2), 0, AMP_NO_ROOM);
}

/* ---- amp_next ------------------------------------------------------------------------------- */

void next_is(const char *what, uint32_t family, const uint8_t *bytes, size_t n,
             size_t place, uint32_t reports, size_t size, size_t start)
{
    size_t found = 77;

    check(amp_next(family, bytes, n, place, reports, &found) == size, what);
    check(found == start, what);
}

void no_next(const char *what, uint32_t family, const uint8_t *bytes, size_t n,
             size_t place, uint32_t reports)
{
    next_is(what, family, bytes, n, place, reports, 0, 77);
}

static void next(void)
{
    next_is("from 0", 1, SLICE(CASE_2), 0, 0, 6, 0);
    next_is("from 1", 1, SLICE(CASE_2), 1, 0, 6, 6);
    next_is("from 6", 1, SLICE(CASE_2), 6, 0, 6, 6);
    no_next("from 7", 1, SLICE(CASE_2), 7, 0);
    no_next("from the end", 1, SLICE(CASE_2), 12, 0);
    no_next("from beyond the end", 1, SLICE(CASE_2), SIZE_MAX, 0);
    next_is("any frame", 1, SLICE(CASE_2 CASE_5), 0, 0, 6, 0);
    next_is("a report", 1, SLICE(CASE_2 CASE_5), 0, 1, 75, 12);
    next_is("a report, asked by another number", 1, SLICE(CASE_2 CASE_5), 0, 256, 75, 12);
    next_is("a report with a comma", 1, SLICE(CASE_2 COMMA_5), 0, 1, 76, 12);
    next_is("any frame, a report with a comma", 1, SLICE(CASE_2 COMMA_5), 7, 0, 76, 12);
    no_next("a report with a comma, a byte short", 1, SLICE(FRONT_5 ",\x0D"), 0, 1);
    no_next("no report", 1, SLICE(CASE_2), 0, 1);
    no_next("a sentence is no report", 2, SLICE(CASE_7), 0, 1);
    next_is("case 9", 2, SLICE(CASE_9), 0, 0, 32, 5);
    no_next("no family", 0, SLICE(CASE_2), 0, 0);
    memcpy(large, CASE_2, 12);
    next_is("65,536 bytes", 1, large, 65536, 1, 0, 6, 6);
    no_next("too long", 1, large, 65537, 1, 0);
}

/* ---- Writers -------------------------------------------------------------------------------- */

void writes(const char *what, uint32_t kind, uint32_t code, const int64_t *values,
            size_t many, const uint8_t *bytes, size_t n)
{
    size_t length = 77, i;
    int rest = 1;

    memset(out, 0xEE, sizeof out);
    check(amp_write(kind, code, values, many, out, n, &length) == 0 && length == n, what);
    check(memcmp(out, bytes, n) == 0, what);
    for (i = n; i < sizeof out; i++)
        rest = rest && out[i] == 0xEE;
    check(rest, what);
}

void does_not_write(const char *what, uint32_t kind, uint32_t code, const int64_t *values,
                    size_t many, size_t room, uint32_t number)
{
    size_t length = 77, i;
    int same = 1;

    memset(out, 0xEE, sizeof out);
    check(amp_write(kind, code, values, many, out, room, &length) == number, what);
    for (i = 0; i < sizeof out; i++)
        same = same && out[i] == 0xEE;
    check(same && length == 77, what);
}

static void writing(void)
{
    writes("case 5", AMP_STATUS, 0, values_5, AMP_STATUS_VALUES, SLICE(CASE_5));
    writes("a comma", AMP_STATUS, 0, comma_5, AMP_STATUS_VALUES, SLICE(COMMA_5));
    writes("the recorded report", AMP_STATUS, 0, recorded, AMP_STATUS_VALUES, SLICE(REWRITTEN));
    check(memcmp(RECORDED, REWRITTEN, sizeof RECORDED) != 0, "it was not in the writer's form");
    writes("case 7", AMP_SENTENCE, 5, values_7, AMP_05_VALUES, SLICE(CASE_7));
    writes("printed 02", AMP_SENTENCE, 2, values_02, AMP_02_VALUES, SLICE(PRINTED_02));
    writes("printed 03", AMP_SENTENCE, 3, values_03, AMP_03_VALUES, SLICE(PRINTED_03));
    writes("ack", AMP_ACK, 0x0D, values_5, 0, SLICE("\xAA\xAA\xAA\x01\x0D\x0D"));
    writes("command", AMP_COMMAND, 0x90, values_5, 0, SLICE("\x55\x55\x55\x01\x90\x90"));
    does_not_write("90 is not acknowledged", AMP_ACK, 0x90, values_5, 0, 6, AMP_NO_CODE);
    does_not_write("code 12", AMP_COMMAND, 0x12, values_5, 0, 6, AMP_NO_CODE);
    does_not_write("code 10D", AMP_ACK, 0x10D, values_5, 0, 6, AMP_NO_CODE);
    does_not_write("no code before no room", AMP_ACK, 0, values_5, 0, 0, AMP_NO_CODE);
    does_not_write("no room", AMP_ACK, 0x0D, values_5, 0, 5, AMP_NO_ROOM);
    does_not_write("no room for a report", AMP_STATUS, 0, values_5, AMP_STATUS_VALUES, 74, AMP_NO_ROOM);
    does_not_write("no room for a comma", AMP_STATUS, 0, comma_5, AMP_STATUS_VALUES, 75, AMP_NO_ROOM);
    does_not_write("too few values", AMP_STATUS, 0, values_5, AMP_STATUS_VALUES - 1, 160, AMP_NO_RECORD);
    does_not_write("too few values before no room", AMP_STATUS, 0, comma_5, AMP_STATUS_VALUES - 1, 0, AMP_NO_RECORD);
    does_not_write("not those of a report", AMP_STATUS, 0, values_02, 13, 160, AMP_NO_RECORD);
    does_not_write("sentence 11", AMP_SENTENCE, 11, values_02, 13, 160, AMP_NO_RECORD);
    does_not_write("kind 0", 0, 0, values_5, AMP_STATUS_VALUES, 160, AMP_NO_RECORD);
    does_not_write("kind more wanted", AMP_MORE, 0, values_5, AMP_STATUS_VALUES, 160, AMP_NO_RECORD);
    does_not_write("no record before no room", AMP_SENTENCE, 2, values_5, AMP_STATUS_VALUES, 0, AMP_NO_RECORD);
}

/* A value over its field, one below 0, and one that 32 bits would cut to a good one. */
static void spoiled_values(void)
{
    static const int64_t bad[] = {10000, -1, INT64_C(0x100000000), INT64_MAX, INT64_MIN};
    int64_t values[AMP_STATUS_VALUES];
    size_t i;

    for (i = 0; i < sizeof bad / sizeof *bad; i++) {
        memcpy(values, values_5, sizeof values);
        values[AMP_STATUS_WATTS] = bad[i];
        does_not_write("watts", AMP_STATUS, 0, values, AMP_STATUS_VALUES, 160, AMP_NO_RECORD);
        memcpy(values, values_03, sizeof values_03);
        values[AMP_03_TEMP] = bad[i] == -1 ? -10000 : bad[i];
        does_not_write("temperature", AMP_SENTENCE, 3, values, AMP_03_VALUES, 160, AMP_NO_RECORD);
    }
}

/* What is neither a comma nor none, or would be one of them in fewer bits. */
static void spoiled_commas(void)
{
    static const int64_t bad[] = {
        2, -1, ',', 256, 257, INT64_C(0x100000000), INT64_C(0x100000001), INT64_MAX, INT64_MIN
    };
    int64_t values[AMP_STATUS_VALUES];
    size_t i;

    memcpy(values, values_5, sizeof values);
    for (i = 0; i < sizeof bad / sizeof *bad; i++) {
        values[AMP_STATUS_COMMA] = bad[i];
        does_not_write("a comma", AMP_STATUS, 0, values, AMP_STATUS_VALUES, 160, AMP_NO_RECORD);
        does_not_write("a comma before no room", AMP_STATUS, 0, values, AMP_STATUS_VALUES, 0, AMP_NO_RECORD);
    }
}

static void enabling(void)
{
    size_t length = 77;

    memset(out, 0xEE, sizeof out);
    check(amp_write_enable(out, 2, &length) == AMP_NO_ROOM, "two places for three plus signs");
    check(length == 77 && out[0] == 0xEE && out[1] == 0xEE, "enable, refused: left alone");
    check(amp_write_enable(out, sizeof out, &length) == 0 && length == 3, "enable");
    check(memcmp(out, "+++\xEE", 4) == 0, "three plus signs");
}

/* ---- Stamps --------------------------------------------------------------------------------- */

static void stamps(void)
{
    check(amp_stamp_order(1, 2) == AMP_EARLIER, "1 before 2");
    check(amp_stamp_order(UINT32_MAX, 0) == AMP_EARLIER, "before the wrap");
    check(amp_stamp_order(0, 0x7FFFFFFF) == AMP_EARLIER, "the latest that is later");
    check(amp_stamp_order(2, 1) == AMP_LATER, "2 behind 1");
    check(amp_stamp_order(0, 0x80000001) == AMP_LATER, "just above the half");
    check(amp_stamp_order(7, 7) == AMP_EQUAL, "equal");
    check(amp_stamp_order(5, 0x80000005) == AMP_CANNOT_SAY, "half way");
    check(amp_stamp_order(0x80000005, 5) == AMP_CANNOT_SAY, "half way back");
}

int main(void)
{
    layout();
    reading();
    reading_line_ends();
    worked_out();
    listing();
    next();
    stream_calls();
    message_calls();
    length_calls();
    writing();
    spoiled_values();
    spoiled_commas();
    enabling();
    stamps();
    printf("%u checks, %u wrong\n", checks, wrong);
    return wrong == 0 ? 0 : 1;
}
