/* Holds the plain stream reader against the proved one: both are given the same
 * calls, and after each the number given back, all 144 bytes of the state and
 * all of the row have to be the same, with the places behind the row as they
 * were.
 *
 *     streamtest [SHARE]
 *
 * The calls are of six sorts: made captures in pieces of many sizes, closed
 * and drained; one to four calls on states of any bytes or nearly right ones,
 * with rows of any length; frames with bytes altered and their sums put right
 * again; frames of which each byte in turn takes each value; reports that end
 * in every way, or never do, cut anywhere; and messages with clocks of all
 * digits, or nearly too long or just so, cut anywhere.  With a share about one
 * of that many turns is taken.  What is offered ends where the memory that may
 * be read ends. */
#include "amp.h"
#include "captures.h"
#include "made.h"
#include "plain_stream.h"
#include "sys.h"

#define LONGEST 65536u
#define PAGE 65536u
#define PLACES 40u
#define TOLD 20u

static unsigned long tried, failed;
static unsigned share = 1;
static uint64_t chances = 1;

/* ---- Both readers ------------------------------------------------------- */

static amp_reader proved, plain;
static int64_t proved_row[PLACES], plain_row[PLACES];
static unsigned long gave[9], kinds[AMP_OTHER + 1];

/* The end of the memory that may be read. */
static uint8_t *fence;

static int make_fence(void)
{
    uint8_t *memory = mmap(NULL, 3 * PAGE, SYS_READ | SYS_WRITE,
                           SYS_PRIVATE | SYS_ANONYMOUS, -1, 0);

    if (memory == SYS_NO_MAP || mprotect(memory + 2 * PAGE, PAGE, 0) != 0)
        return 0;
    fence = memory + 2 * PAGE;
    return 1;
}

static void check(int right, const char *what)
{
    tried++;
    if (right)
        return;
    failed++;
    if (failed <= TOLD)
        printf("not the same: %s, family %u, count %u, call %lu\n", what,
               proved.family, proved.count, tried);
}

static int same_states(void)
{
    return memcmp(&proved, &plain, sizeof proved) == 0;
}

static void fill_rows(void)
{
    size_t i;

    for (i = 0; i < PLACES; i++)
        proved_row[i] = plain_row[i] = INT64_C(-7777) - (int64_t)i;
}

static int rows_untouched(size_t from)
{
    size_t i;

    for (i = from; i < PLACES; i++)
        if (proved_row[i] != INT64_C(-7777) - (int64_t)i
            || plain_row[i] != INT64_C(-7777) - (int64_t)i)
            return 0;
    return 1;
}

/* One call of both.  Gives the number for no. */
static uint32_t feed_both(const uint8_t *bytes, size_t n, size_t room, const char *what)
{
    amp_reader before = proved;
    uint8_t *offered = fence - n;
    uint32_t a, b;

    memcpy(offered, bytes, n);
    fill_rows();
    a = amp_feed(&proved, offered, n, proved_row, room);
    b = plain_feed(&plain, offered, n, plain_row, room);
    check(a == b && same_states() && memcmp(proved_row, plain_row, sizeof plain_row) == 0
          && rows_untouched(a == 0 ? room : 0)
          && (a == 0 || memcmp(&before, &plain, sizeof before) == 0), what);
    gave[a < 9 ? a : 8]++;
    if (a == 0)
        kinds[(uint64_t)proved_row[AMP_KIND] % (AMP_OTHER + 1)]++;
    return a;
}

static void close_both(const char *what)
{
    uint32_t a = amp_close(&proved), b = plain_close(&plain);

    check(a == b && same_states(), what);
}

static void fresh_both(uint32_t family)
{
    uint32_t a = amp_fresh(&proved, family), b = plain_fresh(&plain, family);

    check(a == b && same_states(), "fresh");
}

/* Offers bytes until both want others. */
static void offer_both(const uint8_t *bytes, size_t n, const char *what)
{
    for (;;) {
        size_t room = below(&chances, 16) == 0 ? below(&chances, 30) : AMP_ROW;

        if (feed_both(bytes, n, room, what) != 0) {
            if (room >= AMP_ROW)
                return;
            continue;
        }
        bytes += proved_row[AMP_TAKEN];
        n -= (size_t)proved_row[AMP_TAKEN];
        if (proved_row[AMP_KIND] == AMP_MORE || proved_row[AMP_KIND] == AMP_DONE
            || !same_states())
            return;
    }
}

static void drain_both(const char *what)
{
    close_both(what);
    offer_both(fence, 0, what);
    offer_both(fence, 0, what);
    close_both(what);
    feed_both((const uint8_t *)"$", 1, AMP_ROW, what);
}

/* ---- Captures ----------------------------------------------------------- */

static uint8_t large[LONGEST];

/* Many pieces of one size, then of another, for each has its own short ways. */
static size_t some_piece(void)
{
    static const unsigned sizes[] = {
        0, 1, 1, 2, 5, 16, 16, 39, 40, 74, 75, 76, 133, 134, 4096
    };
    unsigned pick = below(&chances, 19);

    return pick < 15 ? sizes[pick] : below(&chances, pick == 15 ? 5000 : 40);
}

static void one_capture(unsigned family, unsigned kind, uint64_t seed, size_t n)
{
    size_t at = 0, piece = 1;
    unsigned again = 0;

    make_capture(family, kind, seed, large, n);
    fresh_both(family);
    if (below(&chances, 2) == 0)
        proved.at = plain.at = UINT32_MAX - below(&chances, 3000);
    if (below(&chances, 4) == 0)
        proved.skipped = plain.skipped = UINT32_MAX - below(&chances, 3000);
    while (at < n) {
        if (again-- == 0) {
            piece = some_piece();
            again = below(&chances, piece <= 16 ? 300 : 8);
        }
        piece = piece < n - at ? piece : n - at;
        offer_both(large + at, piece, kind_name(kind));
        at += piece;
        if (piece == 0)
            again = 0;
    }
    drain_both(kind_name(kind));
}

static void captures(void)
{
    unsigned family, kind, seed;

    for (family = 1; family <= 4; family++)
        for (kind = 0; kind < KINDS; kind++) {
            for (seed = 0; seed < 10 / share + 1; seed++)
                one_capture(family, kind, 50 + seed, LONGEST);
            for (seed = 0; seed < 1000 / share; seed++)
                one_capture(family, kind, 500 + seed, below(&chances, 700));
        }
}

/* ---- Any bytes ---------------------------------------------------------- */

static void fill(void *to, size_t n)
{
    uint8_t *b = to;

    while (n-- > 0)
        *b++ = (uint8_t)below(&chances, 256);
}

/* Changes a byte or two to ones that mean something. */
static void spoil(uint8_t *b, size_t n)
{
    unsigned many = 1 + below(&chances, 2);

    while (n > 0 && many-- > 0)
        b[below(&chances, (unsigned)n)] = below(&chances, 2) == 0 ? (uint8_t)below(&chances, 256)
            : (uint8_t)"\xAA\x55\x01\x43$*,0 A\x7F\x0D^;\x1F"[below(&chances, 15)];
}

/* A text, begun by what begins it, so that the longest ones come up too; half
 * of them have what ends it among their last bytes. */
static void some_text(uint8_t *to, size_t n, unsigned family)
{
    uint8_t first = family == 4 ? '^' : '$', last = family == 4 ? ';' : '*';
    size_t i;

    fill(to, n);
    for (i = 0; i < n; i++)
        to[i] = to[i] % 95 + 32 == first || to[i] % 95 + 32 == last ? '_' : to[i] % 95 + 32;
    if (n > 0)
        to[0] = first;
    if (n > 0 && below(&chances, 2) == 0)
        to[n - 1 - below(&chances, (unsigned)(n < 6 ? n : 6))] = last;
}

/* What frames of the family begin with, and perhaps more. */
static void some_begun(struct frame *f, unsigned family)
{
    if (family == 4) {
        f->length = 1 + below(&chances, 42);
        some_text(f->bytes, f->length, 4);
    } else if (below(&chances, 3) > 0) {
        put_text(f, below(&chances, 2) == 0 ? "$" : "$APA99,");
    } else {
        marks_and_count(f, family == 1 ? 0xAA : 0x55, below(&chances, 3) == 0 ? 1 : 0x43);
    }
}

/* What a line of the family may be made of, n bytes: frames good, spoiled or cut
 * off, marks, counts, dollar signs, stars, carets, semicolons, rubbish. */
static void some_line(uint8_t *to, size_t n, unsigned family)
{
    static const char rich[] = "\xAA\xAA\xAA\x55\x55\x55\x01\x01\x43\x0D\x0D\x90$$*AP0",
                      letters[] = "^^;;SNRVPWFFTHCsn0175.-: \x1F\x7F";
    size_t at = 0;
    struct frame f;

    while (at < n) {
        unsigned pick = below(&chances, 12), many = below(&chances, 20);

        f.length = 0;
        if (pick < 6)
            good_frame(&f, family, &chances);
        else if (pick < 8)
            while (many-- > 0)
                put(&f, family == 4 ? (uint8_t)letters[below(&chances, sizeof letters - 1)]
                                    : (uint8_t)rich[below(&chances, sizeof rich - 1)]);
        else if (pick < 9)
            while (many-- > 0)
                put(&f, below(&chances, 256));
        else
            some_begun(&f, family);
        if (below(&chances, 4) == 0)
            spoil(f.bytes, f.length);
        if (below(&chances, 4) == 0 && f.length > 1)
            f.length = 1 + below(&chances, (unsigned)f.length - 1);
        for (many = 0; many < f.length && at < n; many++)
            to[at++] = f.bytes[many];
    }
}

static void some_state(uint8_t *line)
{
    static const unsigned limits[5] = {0, 75, 133, 5, 39};
    unsigned family = 1 + below(&chances, 4), count = below(&chances, limits[family] + 1);

    fill(&proved, sizeof proved);
    if (below(&chances, 16) != 0) {
        proved.family = (uint8_t)family;
        proved.closed = (uint8_t)(below(&chances, 5) == 0 ? below(&chances, 256) : 0);
        if (below(&chances, 8) == 0)
            count = limits[family] - 1 + below(&chances, 4);
        proved.count = (uint8_t)count;
        some_line(line, 700, family);
        if (below(&chances, 4) == 0)
            some_text(line, count, family);
        memcpy(proved.held, line, count < 133 ? count : 133);
        if (below(&chances, 3) > 0 && count < 133)
            memset(proved.held + count, 0, 133 - count);
        if (below(&chances, 64) == 0)
            proved.family = (uint8_t)(below(&chances, 2) == 0 ? 0 : 5 + below(&chances, 251));
    }
    plain = proved;
}

static void states(void)
{
    static const unsigned most[] = {1, 2, 8, 17, 140, 560};
    static uint8_t line[700];
    unsigned long turn;

    for (turn = 0; turn < 4000000 / share; turn++) {
        size_t n = below(&chances, most[below(&chances, 6)] + 1), calls = 1 + below(&chances, 4);
        size_t at;

        fill(line, 8);
        some_state(line);
        at = proved.count <= 133 ? proved.count : 0;
        if (below(&chances, 20) == 0)
            close_both("close");
        if (proved.closed && below(&chances, 4) != 0)
            n = 0;
        while (calls-- > 0 && same_states()) {
            size_t room = below(&chances, 3) == 0 ? below(&chances, 31) : AMP_ROW;

            if (feed_both(line + at, n, room, "a state") != 0)
                break;
            at += (size_t)proved_row[AMP_TAKEN];
            n -= (size_t)proved_row[AMP_TAKEN];
        }
    }
}

/* ---- Altered frames ----------------------------------------------------- */

/* Puts the sums of a frame right: of a report or a short packet in place, of a
 * sentence from its star on. */
static void put_right(struct frame *f)
{
    unsigned sum = 0;
    size_t i;

    if (f->bytes[0] == '$') {
        for (i = 1; i < f->length && f->bytes[i] != '*'; i++)
            ;
        f->length = i < 130 ? i : 130;
        put_sums(f);
        return;
    }
    if (f->length == 6)
        f->bytes[5] = f->bytes[4];
    if (f->length < 75)
        return;
    for (i = 4; i < 71; i++)
        sum += f->bytes[i];
    f->bytes[71] = (uint8_t)sum;
    f->bytes[72] = (uint8_t)(sum >> 8);
}

/* Changes, drops or adds a byte of a message behind its caret. */
static void alter_message(struct frame *f)
{
    static const char likely[] = "0123456789012345 .-:T;^SNRVPWFIRDQHCTfrswAMx/@[`{\x1F\x7F";
    size_t at = 1 + below(&chances, (unsigned)f->length - 1);
    unsigned how = below(&chances, 4);

    if (how == 0 && f->length > 2)
        memmove(f->bytes + at, f->bytes + at + 1, --f->length - at);
    else if (how == 1)
        memmove(f->bytes + at + 1, f->bytes + at, f->length++ - at);
    else
        f->bytes[at] = (uint8_t)likely[below(&chances, sizeof likely - 1)];
}

/* Changes, drops or adds a byte before the last four; of packets only changes. */
static void alter(struct frame *f)
{
    static const char likely[] = "0123456789012345678902356789 .,+-,:@xABKSORTLMHNtbarCDPWYFGAP\x7F$";
    size_t at = 1 + below(&chances, (unsigned)f->length - 5);
    uint8_t byte = (uint8_t)likely[below(&chances, sizeof likely - 1)];
    unsigned how = f->bytes[0] == '$' ? below(&chances, 4) : 3;

    if (f->length == 6)
        f->bytes[4] = (uint8_t)below(&chances, 256);
    else if (how == 0 && f->length > 12)
        memmove(f->bytes + at, f->bytes + at + 1, --f->length - at);
    else if (how == 1 && f->length < 134)
        memmove(f->bytes + at + 1, f->bytes + at, f->length++ - at);
    else if (f->bytes[0] == '$')
        f->bytes[at] = byte;
    else
        f->bytes[4 + (at - 1) % 67] = byte;
}

/* A whole frame offered to fresh readers in two calls. */
static void offer_frame(unsigned family, const struct frame *f, size_t cut)
{
    fresh_both(family);
    offer_both(f->bytes, cut, "an altered frame");
    offer_both(f->bytes + cut, f->length - cut, "an altered frame");
}

static void altered(void)
{
    unsigned long turn;

    for (turn = 0; turn < 3000000 / share; turn++) {
        static const uint8_t families[3] = {1, 2, 4};
        unsigned family = families[below(&chances, 3)], many = below(&chances, 4);
        struct frame f;

        if (below(&chances, 64) == 0)
            family = 3;
        good_frame(&f, family, &chances);
        while (many-- > 0)
            if (family == 4)
                alter_message(&f);
            else
                alter(&f);
        if (family != 4)
            put_right(&f);
        offer_frame(family, &f, below(&chances, 2) == 0 ? 0 : below(&chances, (unsigned)f.length + 1));
    }
}

/* Each byte of a packet or a sentence behind the first four in turn takes each
 * value.  The grid voltage of a sentence 02 in the writer's widths is near its
 * top. */
static void every_byte(void)
{
    unsigned turn, value;
    struct frame clean, f;
    size_t i;

    for (turn = 0; turn < 60 / share + 2; turn++) {
        good_frame(&clean, 1 + turn % 2, &chances);
        if (clean.bytes[0] == '$' && clean.bytes[5] == '2' && clean.length == 63)
            memcpy(clean.bytes + 36, "25", 2);
        put_right(&clean);
        for (i = 4; i < clean.length; i++)
            for (value = 0; value < 256; value++) {
                f = clean;
                f.bytes[i] = (unsigned char)value;
                if (i < clean.length - 5)
                    put_right(&f);
                offer_frame(1 + turn % 2, &f, 0);
            }
    }
}

/* Each byte of a message in turn takes each value, and another message follows. */
static void every_byte_of_messages(void)
{
    unsigned turn, value;
    struct frame clean, f;
    size_t i;

    for (turn = 0; turn < 400 / share + 2; turn++) {
        good_frame(&clean, 4, &chances);
        for (i = 0; i < clean.length; i++)
            for (value = 0; value < 256; value++) {
                f = clean;
                f.bytes[i] = (unsigned char)value;
                put_text(&f, "^FT;");
                offer_frame(4, &f, below(&chances, 2) == 0 ? 0 : i);
            }
    }
}

/* ---- Ends of reports ---------------------------------------------------- */

static void made_report(struct frame *f)
{
    do {
        good_frame(f, 1, &chances);
    } while (f->length < 75);
}

/* Fills the unused places with what could mean something if it were held. */
static void soil(void)
{
    size_t i;

    for (i = proved.count; i < sizeof proved.held; i++)
        proved.held[i] = plain.held[i] = (uint8_t)",\x0D\x0A\xAA;^A"[below(&chances, 7)];
}

/* A line offered to fresh readers, up to a cut and then in pieces of a size;
 * closed and drained. */
static void offer_line(unsigned family, const uint8_t *line, size_t n, size_t cut, size_t piece,
                       const char *what)
{
    size_t at = cut < n ? cut : n;

    fresh_both(family);
    offer_both(line, at, what);
    if (below(&chances, 2) == 0)
        soil();
    for (; at < n; at += piece)
        offer_both(line + at, piece < n - at ? piece : n - at, what);
    drain_both(what);
}

static void cut_anywhere(unsigned family, const uint8_t *line, size_t n, const char *what)
{
    size_t cut;

    for (cut = 0; cut <= n; cut++)
        offer_line(family, line, n, cut, n, what);
    offer_line(family, line, n, 0, 1, what);
    offer_line(family, line, n, 0, 16, what);
}

/* Four bytes behind the check bytes of a made report are all that may mean
 * something there.  Then the line ends, or an acknowledgement follows. */
static void line_ends(void)
{
    uint8_t line[83];
    struct frame f;
    unsigned end, left, i;
    size_t cut;

    for (end = 0; end < 5 * 5 * 5 * 5; end += share) {
        made_report(&f);
        memcpy(line, f.bytes, 73);
        for (i = 73, left = end; i < 77; i++, left /= 5)
            line[i] = (uint8_t)",\x0D\x0A\xAA-"[left % 5];
        memcpy(line + 77, "\xAA\xAA\xAA\x01\x0D\x0D", 6);
        for (cut = 72; cut < 84; cut++) {
            offer_line(1, line, cut, 1 + below(&chances, 72), cut, "the end of a report");
            offer_line(1, line, cut, below(&chances, 5), 1, "the end of a report");
            offer_line(1, line, 83, cut, 83, "the end of a report");
        }
    }
}

/* A report that is begun behind some noise and never ends, with two
 * acknowledgements at a place in it, and a comma behind where its check bytes
 * would be, or another byte. */
static void begun_report(size_t noise, size_t place, uint8_t behind_sum)
{
    uint8_t line[108] = {0};
    size_t n = noise + 92, end;

    memcpy(line + noise, "\xAA\xAA\xAA\x43", 4);
    memcpy(line + noise + place, "\xAA\xAA\xAA\x01\x0D\x0D\xAA\xAA\xAA\x01\x09\x09", 12);
    line[noise + 73] = behind_sum;
    cut_anywhere(1, line, n, "held back");
    for (end = noise + 72; end < noise + 80; end++)
        offer_line(1, line, end, end, 1, "held back, and closed");
}

static void held_back(void)
{
    size_t noise, place;

    for (place = 4; place < 80; place += share)
        for (noise = 0; noise <= 16; noise++) {
            begun_report(noise, place, ',');
            begun_report(noise, place, 0);
        }
}

/* A report that other frames break off at any place. */
static void broken_off(void)
{
    uint8_t line[240];
    struct frame f;
    size_t place, n;

    for (place = 1; place < 76; place += share) {
        made_report(&f);
        memcpy(line, f.bytes, 75);
        for (n = place; n < place + 75; n += f.length) {
            good_frame(&f, 1, &chances);
            memcpy(line + n, f.bytes, f.length);
        }
        cut_anywhere(1, line, n, "broken off");
    }
}

/* ---- Clocks and lengths of messages ------------------------------------- */

static void one_clock(const unsigned *number)
{
    struct frame f;

    f.length = (size_t)sprintf((char *)f.bytes, "^CC%02u-%02u-%02uT%02u:%02u:%02u;", number[0],
                               number[1], number[2], number[3], number[4], number[5]);
    offer_frame(4, &f, below(&chances, 2) == 0 ? 0 : below(&chances, 22));
}

/* Each number of a clock goes through all of its digits; months and days go
 * through theirs together, in a year of 366 days and one of 365. */
static void clocks(void)
{
    unsigned i, k;

    for (i = 0; i < 2 * 20 * 40; i++)
        one_clock((const unsigned[]){40 + i / 800, i / 40 % 20, i % 40, 12, 34, 56});
    for (i = 0; i < 600; i++) {
        unsigned number[6] = {0, 2, 29, 0, 0, 0};

        number[i / 100] = i % 100;
        one_clock(number);
    }
    for (i = 0; i < 100; i++)
        for (k = 28; k < 31; k++)
            one_clock((const unsigned[]){i, 2, k, 23, 59, 59});
}

/* A text of about the most bytes behind a caret, ended by a semicolon or by any
 * other byte that may mean something, or by nothing; with another caret at a
 * place in it, or a byte that no text may hold, or none.  Then a message. */
static void long_message(size_t text, const char *end, size_t place, uint8_t among)
{
    uint8_t line[80];
    size_t n = 1 + text + strlen(end);

    memset(line, below(&chances, 2) == 0 ? 'q' : '~', 1 + text);
    line[0] = '^';
    line[1] = below(&chances, 8) == 0 ? '1' : 'A';
    if (place > 0)
        line[place] = among;
    memcpy(line + 1 + text, end, strlen(end));
    memcpy(line + n, "^FT;", 4);
    cut_anywhere(4, line, n, "a long message");
    cut_anywhere(4, line, n + 4, "a long message, and another");
}

static void long_messages(void)
{
    static const char *const ends[] = {";", "", "^", "\x1F", "\x7F", "_", ";;", "^;"};
    size_t text, place;
    unsigned i;

    for (text = 35; text <= 42; text++)
        for (i = 0; i < sizeof ends / sizeof *ends; i++) {
            long_message(text, ends[i], 0, 0);
            for (place = 1; place <= text; place += share) {
                long_message(text, ends[i], place, '^');
                long_message(text, ends[i], place, below(&chances, 2) == 0 ? 0x1F : 0x7F);
            }
        }
}

int main(int argc, char **argv)
{
    unsigned i;

    if (argc > 1 && atoi(argv[1]) > 1)
        share = (unsigned)atoi(argv[1]);
    if (!make_fence())
        return 2;
    captures();
    printf("captures: %lu tried, %lu failed\n", tried, failed);
    states();
    printf("with states: %lu tried, %lu failed\n", tried, failed);
    altered();
    every_byte();
    every_byte_of_messages();
    line_ends();
    held_back();
    broken_off();
    clocks();
    long_messages();
    printf("numbers for no:");
    for (i = 0; i < 9; i++)
        printf(" %u: %lu", i, gave[i]);
    printf("\nkinds of answers:");
    for (i = 1; i <= AMP_OTHER; i++)
        printf(" %u: %lu", i, kinds[i]);
    printf("\n%lu tried, %lu failed\n", tried, failed);
    return failed == 0 ? 0 : 1;
}
