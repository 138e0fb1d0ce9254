/* What the hostile test stands on; hostile.h says what there is. */
#include "hostile.h"

/* ---- Chances -------------------------------------------------------------------------------- */

uint64_t seed, state;

uint64_t chance(void)
{
    uint64_t z = state += UINT64_C(0x9E3779B97F4A7C15);

    z = (z ^ z >> 30) * UINT64_C(0xBF58476D1CE4E5B9);
    z = (z ^ z >> 27) * UINT64_C(0x94D049BB133111EB);
    return z ^ z >> 31;
}

size_t some_below(size_t limit)
{
    return (size_t)(chance() >> 16) % limit;
}

int once_in(size_t many)
{
    return some_below(many) == 0;
}

void fill(void *to, size_t n)
{
    uint8_t *at = to;
    uint64_t word = 0;
    size_t i;

    for (i = 0; i < n; i++, word >>= 8) {
        if (i % 8 == 0)
            word = chance();
        at[i] = (uint8_t)word;
    }
}

/* ---- What is wrong -------------------------------------------------------------------------- */

static const char *const names[FUNCTIONS] = {
    "amp_fresh", "amp_feed", "amp_close", "amp_read", "amp_list", "amp_next", "amp_write",
    "amp_write_enable", "amp_stamp_order"
};

#define TOLD 20
unsigned long calls, wrong;
static unsigned long told;
static unsigned function;
static int this_wrong;

/* How often each function gave each number, to show that all of them come up. */
#define NUMBERS 9
static unsigned long gave[FUNCTIONS][NUMBERS];

void expect(int right, const char *what)
{
    if (right)
        return;
    if (!this_wrong)
        wrong++;
    this_wrong = 1;
    if (told++ < TOLD)
        printf("wrong: call %lu, %s: not %s\n", calls, names[function], what);
}

/* A fence was touched: by the call, or by one that looks at what it gave. Neither can go on. */
static void stop_at_fence(int number)
{
    printf("wrong: call %lu, %s, seed %lu: signal %d, memory was touched that was not lent\n", calls,
           names[function], (unsigned long)seed, number);
    printf("%lu calls, %lu wrong\n", calls, wrong + !this_wrong);
    exit(1);
}

/* Takes note of a function's number. Of amp_next it is 0 for none and 1 for a frame. */
void note(uint32_t number)
{
    EXPECT(number < NUMBERS);
    if (number < NUMBERS)
        gave[function][number]++;
}

void print_numbers(void)
{
    unsigned i, number;

    for (i = 0; i < FUNCTIONS; i++) {
        printf("%-16s gave", names[i]);
        for (number = 0; number < NUMBERS; number++)
            if (gave[i][number] > 0)
                printf(" %u: %lu", number, gave[i][number]);
        printf("\n");
    }
}

/* ---- Lent memory ---------------------------------------------------------------------------- */

/* Each part that is lent for a call stands in a field of its own. Before and behind each field is a fence of memory
 * that nobody may touch. Half of the parts end where their field ends, a quarter begin where it begins, and the
 * others stand inside. The GUARD bytes before and behind a part, as far as the field goes, are watched with it. */
#define GUARD 64u

/* A whole number of pages, also where an emulator runs on a system whose pages are larger than those of x86-64. */
#define FENCE 65536u

/* Room for the longest capture, or for the longest list of starts; and no call is lent more than three parts. */
#define FIELD (2u * FENCE)
#define FIELDS 3u
#define STEP (FENCE + FIELD)
#define ARENA (FIELDS * STEP + FENCE)

struct span {
    size_t from, end;
};

static uint8_t *arena, *before;
static struct span watched[FIELDS];
static size_t parts;

int make_arena(void)
{
    size_t fence;

    arena = mmap(NULL, ARENA, SYS_READ | SYS_WRITE, SYS_PRIVATE | SYS_ANONYMOUS, -1, 0);
    before = malloc(ARENA);
    if (arena == SYS_NO_MAP || before == NULL)
        return 0;
    fill(arena, ARENA);
    for (fence = 0; fence < ARENA; fence += STEP)
        if (mprotect(arena + fence, FENCE, 0) != 0)
            return 0;
    signal(SYS_NO_MEMORY, stop_at_fence);
    signal(SYS_NOT_ALLOWED, stop_at_fence);
    return 1;
}

void begin(unsigned which)
{
    function = which;
    calls++;
    this_wrong = 0;
    parts = 0;
}

/* Where in its field a part stands. */
static size_t some_place(size_t n, size_t align)
{
    switch (some_below(4)) {
    case 0: return 0;
    case 1: return GUARD + some_below(GUARD) / align * align;
    default: return (FIELD - n) / align * align;
    }
}

void *lend(size_t n, size_t align)
{
    size_t field = parts * STEP + FENCE, place = some_place(n, align), behind = FIELD - place - n;
    struct span *span = &watched[parts++];

    span->from = field + place - (place < GUARD ? place : GUARD);
    span->end = field + place + n + (behind < GUARD ? behind : GUARD);
    return arena + field + place;
}

/* Notes what is in the watched spans before the call. */
void seal(void)
{
    size_t i;

    for (i = 0; i < parts; i++)
        memcpy(before + watched[i].from, arena + watched[i].from, watched[i].end - watched[i].from);
}

/* This part may have changed. */
void allow(const void *part, size_t n)
{
    size_t at = (size_t)((const uint8_t *)part - arena);

    memcpy(before + at, part, n);
}

/* Everything else may not. */
void finish(void)
{
    size_t i;

    for (i = 0; i < parts; i++)
        expect(memcmp(before + watched[i].from, arena + watched[i].from, watched[i].end - watched[i].from) == 0,
               "unchanged beside what may change");
}

/* ---- The rules that a result is held to ----------------------------------------------------- */

int is_family(uint32_t family)
{
    return family >= 1 && family <= 4;
}

/* Whether a row is that of a frame, and not of a call that found none. */
int is_frame(const int64_t *row)
{
    return row[AMP_KIND] != AMP_MORE && row[AMP_KIND] != AMP_DONE;
}

size_t limit_of(uint32_t family)
{
    return family == 1 ? 75 : family == 2 ? 133 : family == 3 ? 5 : 39;
}

/* The fewest bytes that a frame of the family has. */
size_t least_of(uint32_t family)
{
    return family == 4 ? 3 : 6;
}

int is_code(uint32_t kind, uint32_t code)
{
    return (code >= 1 && code <= 0x11) || code == 0x82 || code == 0x83
        || (code == 0x90 && kind == AMP_COMMAND);
}

/* The listed letters of the KPA1500: how many values their response has, and how many bytes. */
struct message {
    uint32_t code;
    size_t values;
    size_t length;
};

static const struct message messages[] = {
    {AMP_SN, 1, 9}, {AMP_RV, 2, 9}, {AMP_PWF, 1, 9}, {AMP_PWI, 1, 9}, {AMP_PWR, 1, 9}, {AMP_PWD, 1, 9},
    {AMP_FR, 1, 9}, {AMP_FQ, 1, 9}, {AMP_FS, 1, 5}, {AMP_HS, 1, 5}, {AMP_CC, 6, 21}, {AMP_FT, 0, 4}
};
#define MESSAGES (sizeof messages / sizeof *messages)

/* NULL where the letters are not listed. */
static const struct message *message_of(uint32_t code)
{
    size_t i;

    for (i = 0; i < MESSAGES; i++)
        if (messages[i].code == code)
            return &messages[i];
    return NULL;
}

/* How long a question or a response is; 0 where there is none with this code. FT is no question. */
static size_t message_length(uint32_t kind, uint32_t code)
{
    const struct message *m = message_of(code);

    if (m == NULL || (kind == AMP_QUESTION && code == AMP_FT))
        return 0;
    return kind == AMP_RESPONSE ? m->length : code > 0xFFFF ? 5 : 4;
}

size_t values_of(uint32_t kind, uint32_t code)
{
    const struct message *m = message_of(code);

    if (kind == AMP_STATUS)
        return AMP_STATUS_VALUES;
    if (kind == AMP_OTHER)
        return AMP_OTHER_VALUES;
    if (kind == AMP_RESPONSE)
        return m == NULL ? 0 : m->values;
    if (kind != AMP_SENTENCE)
        return 0;
    return code == 2 ? AMP_02_VALUES : code == 3 ? AMP_03_VALUES : code == 5 ? AMP_05_VALUES : 0;
}

size_t row_size(const int64_t *row)
{
    return (AMP_VALUES + values_of((uint32_t)row[AMP_KIND], (uint32_t)row[AMP_CODE])) * sizeof *row;
}

/* How long a report is by its row's last value; 0 where that is neither 0 nor 1. */
static size_t report_length(const int64_t *row)
{
    int64_t comma = row[AMP_VALUES + AMP_STATUS_COMMA];

    return comma == 0 ? 75 : comma == 1 ? 76 : 0;
}

/* How long the writer makes the frame of a row; 0 where there is no writer. */
size_t written_length(const int64_t *row)
{
    uint32_t kind = (uint32_t)row[AMP_KIND], code = (uint32_t)row[AMP_CODE];

    if (kind == AMP_ACK || kind == AMP_COMMAND)
        return 6;
    if (kind == AMP_STATUS)
        return report_length(row);
    if (kind == AMP_QUESTION || kind == AMP_RESPONSE)
        return message_length(kind, code);
    if (kind != AMP_SENTENCE)
        return 0;
    return code == 2 ? 63 : code == 3 ? 49 : code == 5 ? 32 : 0;
}

/* How many capitals a value of other letters has, up to four; 5 where it has anything else. */
static size_t letters_in(int64_t value)
{
    size_t n = 0;

    if (value < 0 || value > UINT32_MAX)
        return 5;
    for (; value > 0; value >>= 8, n++)
        if ((value & 0xFF) < 'A' || (value & 0xFF) > 'Z')
            return 5;
    return n;
}

/* How many other letters a row has; 0 where its values are no such letters, or listed ones. */
static size_t letters_of(const int64_t *row)
{
    size_t all = 0, last = 4, i, n;

    for (i = 0; i < AMP_OTHER_VALUES; i++) {
        n = letters_in(row[AMP_VALUES + i]);
        if (n > 4 || (last < 4 && n > 0))
            return 0;
        all += n;
        last = n;
    }
    return message_of((uint32_t)row[AMP_VALUES]) != NULL ? 0 : all;
}

static int is_message(const int64_t *row)
{
    if (row[AMP_KIND] == AMP_OTHER)
        return row[AMP_CODE] == 0 && letters_of(row) > 0;
    return (row[AMP_KIND] == AMP_QUESTION || row[AMP_KIND] == AMP_RESPONSE)
        && row[AMP_CODE] >= 0 && row[AMP_CODE] <= UINT32_MAX
        && message_length((uint32_t)row[AMP_KIND], (uint32_t)row[AMP_CODE]) > 0;
}

/* Whether kind and code of a row are those of a frame of the family. */
int frame_of(uint32_t family, const int64_t *row)
{
    int64_t kind = row[AMP_KIND], code = row[AMP_CODE];

    if (family == 4)
        return is_message(row);
    if (family == 2)
        return kind == AMP_SENTENCE && code >= 0 && code <= 99;
    if (family == 1 && kind == AMP_STATUS)
        return code == 0;
    return kind == (family == 1 ? AMP_ACK : AMP_COMMAND) && code >= 0
        && is_code((uint32_t)kind, (uint32_t)code);
}

int length_fits(const int64_t *row)
{
    if (row[AMP_KIND] == AMP_SENTENCE)
        return row[AMP_LENGTH] >= 11 && row[AMP_LENGTH] <= 134;
    if (row[AMP_KIND] == AMP_STATUS)
        return row[AMP_LENGTH] == (int64_t)report_length(row);
    if (row[AMP_KIND] == AMP_OTHER)
        return row[AMP_LENGTH] >= (int64_t)letters_of(row) + 2 && row[AMP_LENGTH] <= 40;
    return row[AMP_LENGTH] == (int64_t)written_length(row);
}

/* ---- Arguments ------------------------------------------------------------------------------ */

/* Captures to take bytes from, made once. Those of kind CLEAN are frames without a gap. */
#define POOL 16384u
#define FAMILIES 4u
static uint8_t pool[FAMILIES + 1][KINDS][POOL];

void make_pool(void)
{
    unsigned family, kind;

    for (family = 1; family <= FAMILIES; family++)
        for (kind = 0; kind < KINDS; kind++)
            make_capture(family, kind, chance() % 1000000, pool[family][kind], POOL);
}

/* Also any number, and one that is a family in its low byte only. */
uint32_t some_family(void)
{
    if (once_in(50))
        return once_in(2) ? (uint32_t)chance() : (uint32_t)chance() << 8 | (1 + (uint32_t)some_below(FAMILIES));
    return once_in(10) ? (uint32_t)some_below(6) : 1 + (uint32_t)some_below(FAMILIES);
}

uint32_t near_family(uint32_t family)
{
    return is_family(family) && !once_in(20) ? family : 1 + (uint32_t)some_below(FAMILIES);
}

size_t some_length(size_t most)
{
    static const size_t sharp[] = {0, 1, 2, 3, 4, 5, 6, 7, 9, 11, 21, 32, 38, 39, 40, 41, 74, 75, 76, 77, 133, 134, 135};

    return once_in(4) ? sharp[some_below(sizeof sharp / sizeof *sharp)] : some_below(most);
}

void spoil(uint8_t *bytes, size_t n)
{
    size_t many = once_in(2) ? 1 + some_below(3) : 0;

    while (n > 0 && many-- > 0)
        bytes[some_below(n)] = once_in(2) ? (uint8_t)chance() : (uint8_t)"\xAA\x55\x01\x43$*,0^;F"[some_below(11)];
}

/* Bytes of a line of this family, mostly: a part of a capture, whole or spoiled; else rubbish, or
 * nothing but what frames begin with. */
void some_bytes(uint8_t *to, size_t n, uint32_t family)
{
    size_t i;

    if (n > POOL || once_in(8)) {
        fill(to, n);
    } else if (once_in(8)) {
        for (i = 0; i < n; i++)
            to[i] = (uint8_t)"\xAA\xAA\xAA\x55\x55\x55\x01\x43$$APA05,*\x0D^^F;;"[some_below(23)];
    } else {
        memcpy(to, pool[near_family(family)][some_below(KINDS)] + some_below(POOL - n + 1), n);
        spoil(to, n);
    }
}

/* A frame of a family out of a clean capture, with its length. */
const uint8_t *some_frame(uint32_t family, size_t *n)
{
    const uint8_t *capture = pool[family][CLEAN];
    size_t start = 0;

    *n = amp_next(family, capture, POOL, some_below(POOL - 300), 0, &start);
    return capture + start;
}

int64_t some_value(void)
{
    static const int64_t ends[] = {
        INT64_MIN, INT64_MAX, -1, 0, 1, 5, 6, 99, 100, 255, 256, 9999, 10000, 65536, 99999, 100000, INT64_C(0x7FFFFFFF),
        INT64_C(0x80000000), INT64_C(0xFFFFFFFF), INT64_C(0x100000000), INT64_C(0x100000014)
    };

    switch (some_below(3)) {
    case 0: return (int64_t)chance();
    case 1: return (int64_t)some_below(300) - 20;
    default: return ends[some_below(sizeof ends / sizeof *ends)];
    }
}

/* Also the listed letters, and now and then those with a byte more in front. */
uint32_t some_code(void)
{
    switch (some_below(4)) {
    case 0: return (uint32_t)chance();
    case 1: return (uint32_t)some_below(260);
    default: return messages[some_below(MESSAGES)].code | (once_in(8) ? (uint32_t)chance() << 24 : 0);
    }
}

size_t some_row_room(void)
{
    return once_in(3) ? some_below(AMP_ROW) : AMP_ROW + some_below(4);
}

/* ---- Readers -------------------------------------------------------------------------------- */

/* States that calls have left behind, so that streams also go on. */
#define KEPT 64u
static amp_reader kept[KEPT];

void keep(const amp_reader *reader)
{
    kept[some_below(KEPT)] = *reader;
}

/* A state that a reader might have, but for what its bytes mean. */
static void likely_reader(amp_reader *reader)
{
    uint32_t family = 1 + (uint32_t)some_below(FAMILIES);
    size_t limit = limit_of(family), count = some_below(limit + 1 + (once_in(4) ? 3 : 0));

    fill(reader, sizeof *reader);
    reader->family = (uint8_t)family;
    reader->closed = once_in(4) ? (uint8_t)some_below(256) : (uint8_t)once_in(3);
    reader->count = (uint8_t)count;
    some_bytes(reader->held, sizeof reader->held, family);
    if (once_in(2) && count <= limit)
        memset(reader->held + count, 0, sizeof reader->held - count);
    if (once_in(2))
        reader->at = UINT32_MAX - (uint32_t)some_below(200);
}

void some_reader(amp_reader *reader)
{
    if (once_in(6))
        fill(reader, sizeof *reader);
    else if (once_in(2))
        likely_reader(reader);
    else
        *reader = kept[some_below(KEPT)];
    if (once_in(20))
        reader->family = (uint8_t)some_family();
}

int unused_are_zero(const amp_reader *reader)
{
    size_t i;

    for (i = reader->count; i < sizeof reader->held; i++)
        if (reader->held[i] != 0)
            return 0;
    return 1;
}
