/* Tries the lister out: on the bench cases that a list can show, on reports that
 * end in every way and are cut anywhere, on messages of every length, name and
 * date, on single frames with fields altered and their sums put right again, on
 * refusals, and on many made captures.  Except for the cases the right answer
 * comes from the slow lister of slow.c.
 *
 *     selftest [SHARE]
 *
 * With a share it takes about one of that many turns. */
#include "captures.h"
#include "plain.h"
#include "slow.h"
#include "sys.h"

#define LONGEST 65536u
#define UNTOUCHED UINT32_C(0xDEADBEEF)

static unsigned long tried, failed;

/* One of this many turns is taken. */
static unsigned share = 1;

static void check(int right, const char *what)
{
    tried++;
    if (!right) {
        failed++;
        printf("WRONG: %s\n", what);
    }
}

/* ---- Comparing ---------------------------------------------------------- */

/* Places for the most room any test asks for, and a watched one beyond. */
static uint32_t places[LONGEST + 64], right[LONGEST];

/* Runs the lister with this much room and compares answer, count and every
 * place, one beyond the room as well.  The capture is moved to memory of just
 * its size, so that a checked build sees a look past its end. */
static int as_expected(unsigned family, const unsigned char *s, size_t n,
                       size_t room, const uint32_t *want, size_t many)
{
    unsigned char *tight = malloc(n > 0 ? n : 1);
    unsigned answer, refusal = many > room ? REFUSED_ROOM : 0;
    size_t count = 77, i, filled = refusal == 0 ? many : 0;
    int same;

    if (n > 0)
        memcpy(tight, s, n);
    for (i = 0; i <= room; i++)
        places[i] = UNTOUCHED;
    answer = plain_list(family, tight, n, places, room, &count);
    free(tight);
    same = answer == refusal && count == (refusal == 0 ? many : 77);
    for (i = 0; i < filled; i++)
        same = same && places[i] == want[i];
    for (; i <= room; i++)
        same = same && places[i] == UNTOUCHED;
    return same;
}

/* A small generator of chances for this file. */
static uint64_t seed_now = 12345;

static unsigned roll(unsigned limit)
{
    seed_now ^= seed_now << 13;
    seed_now ^= seed_now >> 7;
    seed_now ^= seed_now << 17;
    return (unsigned)(seed_now >> 33) % limit;
}

/* ---- Bench cases -------------------------------------------------------- */

static void bench(const char *name, unsigned family, const void *s, size_t n,
                  size_t many, uint32_t first, uint32_t second)
{
    uint32_t want[2];

    want[0] = first;
    want[1] = second;
    check(as_expected(family, s, n, 3, want, many), name);
    check(as_expected(family, s, n, n, want, many), name);
    if (many > 0)
        check(as_expected(family, s, n, many - 1, want, many), name);
    check(slow_list(family, s, n, right, &n) == many
          && memcmp(right, want, many * sizeof *want) == 0, name);
}

static void packet_cases(void)
{
    static const char two[] = "\xAA\xAA\xAA\x01\x0D\x0D\xAA\xAA\xAA\x01\x09\x09";
    unsigned char b[75] = {0};

    bench("case 1", 1, "\xAA\xAA\xAA\xAA\x01\x0D\x0D", 7, 1, 1, 0);
    bench("case 2", 1, two, 12, 2, 0, 6);
    bench("case 3", 1, "\xAA\xAA\xAA\x01\x0D\x0E\xAA\xAA\xAA\x01\x09\x09", 12,
          1, 6, 0);
    memcpy(b, "\xAA\xAA\xAA\x43", 4);
    memcpy(b + 4, two, 12);
    bench("case 4, 16 bytes", 1, b, 16, 2, 4, 10);
    bench("case 4, 75 bytes", 1, b, 75, 2, 4, 10);
    bench("case 10, family 1", 1, "\xAA\xAA\xAA\x01\x90\x90", 6, 0, 0, 0);
    bench("case 10, family 3", 3, "\x55\x55\x55\x01\x90\x90", 6, 1, 0, 0);
    bench("case 11, family 1", 1, "", 0, 0, 0, 0);
    bench("case 11, family 2", 2, "", 0, 0, 0, 0);
    bench("case 11, family 3", 3, "", 0, 0, 0, 0);
    bench("case 11, family 4", 4, "", 0, 0, 0, 0);
}

/* A report with these 67 bytes of data and the sum put right, with a comma
 * before its line end or without; gives the length. */
static size_t wrap_report(unsigned char *b, const char *data, int comma)
{
    unsigned sum = 0;
    size_t i;

    memcpy(b, "\xAA\xAA\xAA\x43", 4);
    memcpy(b + 4, data, 67);
    for (i = 4; i < 71; i++)
        sum += b[i];
    b[71] = (unsigned char)(sum % 256);
    b[72] = (unsigned char)(sum / 256);
    memcpy(b + 73, comma ? ",\x0D\x0A" : "\x0D\x0A", comma ? 3 : 2);
    return comma ? 76 : 75;
}

#define DATA_5 ",20K,S,R,x,2,03,2t,0r,M,0000, 0.00, 0.00, 0.0, 0.0," \
               " 31, 29, 30,N,N,"

static void report_cases(int comma)
{
    unsigned char b[76];
    size_t n = wrap_report(b, DATA_5, comma);

    check(b[71] == 0x6A && b[72] == 0x0D, "case 5, check bytes");
    bench("case 5", 1, b, n, 1, 0, 0);
    bench("case 5, a byte short", 1, b, n - 1, 0, 0, 0);
    b[71] = 0x0D;
    b[72] = 0x6A;
    bench("case 6", 1, b, n, 0, 0, 0);
    wrap_report(b, ",13K,S,R,A,2,11,2t,0r,M,0000, 0.00, 0.00, 0.0, 0.0,"
                   " 31,  0,000,N,N,", comma);
    bench("case 13, 13K", 1, b, n, 1, 0, 0);
    wrap_report(b, ",20K,S,R,x,2,11,2t,0r,M,0000, 0.00, 0.00, 0.0, 0.0,"
                   " 31, 29, 30,N,N,", comma);
    bench("case 13, 20K", 1, b, n, 0, 0, 0);
}

/* Case 5 up to its check bytes, of which the second is 0D, and this behind. */
static void ends(const char *name, const char *end, size_t n, size_t many,
                 uint32_t first, uint32_t second)
{
    unsigned char b[160];

    wrap_report(b, DATA_5, 0);
    memcpy(b + 73, end, n);
    bench(name, 1, b, 73 + n, many, first, second);
}

/* What a 1.3K-FA sent on 9 July 2024, as Hamlib 4.6 prints it. */
#define RECORDED "\xAA\xAA\xAA\x43,13K,S,R,A,1,07,2a,0r,M,0000, 0.00, 0.00," \
                 " 0.0, 0.0,077,000,000,N,N,\x51\x0D,\x0D\x0A"
#define ACK "\xAA\xAA\xAA\x01\x09\x09"
static void line_end_cases(void)
{
    bench("the recorded report", 1, RECORDED, 76, 1, 0, 0);
    ends("nothing behind the check bytes", "", 0, 0, 0, 0);
    ends("a comma, 74 bytes", ",", 1, 0, 0, 0);
    ends("a comma, 75 bytes", ",\x0D", 2, 0, 0, 0);
    ends("a comma, 76 bytes", ",\x0D\x0A", 3, 1, 0, 0);
    ends("a comma, 0D 0D", ",\x0D\x0D", 3, 0, 0, 0);
    ends("a comma, 0D 0D 0A", ",\x0D\x0D\x0A", 4, 0, 0, 0);
    ends("a comma, 0A 0D", ",\x0A\x0D", 3, 0, 0, 0);
    ends("two commas", ",,\x0D\x0A", 4, 0, 0, 0);
    ends("a comma, another packet", "," ACK, 7, 1, 74, 0);
    ends("a comma, 0D, another packet", ",\x0D" ACK, 8, 1, 75, 0);
    ends("a comma, 0D 0A, another packet", ",\x0D\x0A" ACK, 9, 2, 0, 76);
    ends("no comma, another packet", "\x0D\x0A" ACK, 8, 2, 0, 75);
    ends("no comma, 0D, another packet", "\x0D" ACK, 7, 1, 74, 0);
    ends("a comma behind 75 bytes", "\x0D\x0A,", 3, 1, 0, 0);
    ends("a comma and 0D 0A behind 75 bytes", "\x0D\x0A,\x0D\x0A", 5, 1, 0, 0);
}

/* A report that is broken off anywhere by another: of the two only the second
 * is a frame, whatever its bytes make of the first one's end. */
static void broken_off_cases(void)
{
    unsigned char b[160], whole[76];
    unsigned forms;
    size_t cut, first, second;

    for (forms = 0; forms < 4; forms++) {
        first = wrap_report(b, DATA_5, forms % 2);
        second = wrap_report(whole, DATA_5, forms / 2);
        memcpy(b + first, whole, second);
        bench("one behind the other", 1, b, first + second, 2, 0, (uint32_t)first);
        for (cut = first - 1; cut > 0; cut--) {
            memcpy(b + cut, whole, second);
            bench("broken off", 1, b, cut + second, 1, (uint32_t)cut, 0);
        }
    }
}

/* A dollar sign, the payload, and the right end; gives the length. */
static size_t wrap_sentence(unsigned char *b, const char *payload)
{
    size_t n = strlen(payload), i;
    unsigned sum1 = 0, sum2 = 0;

    for (i = 0; i < n; i++) {
        sum1 = (sum1 + (unsigned char)payload[i]) % 256;
        sum2 = (sum2 + sum1) % 256;
    }
    return (size_t)sprintf((char *)b, "$%s*%02X%02X", payload, sum2, sum1);
}

static void sentence_cases(void)
{
    unsigned char b[160];
    char payload[160] = "APA99,";

    bench("case 8", 2, "$APA05,11,18,1B,34,00,2A,01*a844", 32, 0, 0, 0);
    bench("case 9", 2, "$APA0$APA05,11,18,1B,34,00,2A,01*A844", 37, 1, 5, 0);
    memset(payload + 6, '~', 123);
    bench("case 12, 129", 2, b, wrap_sentence(b, payload), 0, 0, 0);
    payload[128] = '\0';
    bench("case 12, 128", 2, b, wrap_sentence(b, payload), 1, 0, 0);
    bench("shortest", 2, b, wrap_sentence(b, "APA99"), 1, 0, 0);
    bench("bare comma", 2, b, wrap_sentence(b, "APA99,"), 1, 0, 0);
    bench("no comma", 2, b, wrap_sentence(b, "APA99x"), 0, 0, 0);
    bench("bare 05", 2, b, wrap_sentence(b, "APA05"), 0, 0, 0);
}

/* The sentences printed for the Alpha; the print breaks 06 over two lines. */
static void printed_sentences(void)
{
    static const char *const printed[] = {
        "$APA00,AmateurProto,63942A0008,1.19,1.19,1.16,1.16,1.16*283E",
        "$APA02,15017,010,2590,3169,0768,230,096,057,1,6,01,0,15721*D83F",
        "$APA03,499,121,240,121,389,2370,000,5,+028.0*9D7D",
        "$APA04,01750,02000,03450,04100,06900,07500,09900,10600,13900,14600,"
        "17900,18600,20900,21600,24400,25000,27995,29900*E213",
        "$APA05,11,18,1B,34,00,2A,01*A844",
        "$APA06,FF,FF,FF,FF,FF,FF,FF,FF,FF,FF,71,01,01,01,01,01,01,01,04,01,"
        "01,01,01,01,01,01,01,01,01,01,01*4203",
        "$APA11,02,0000,00EA,0068,0068*72B4"
    };
    size_t i;

    for (i = 0; i < sizeof printed / sizeof *printed; i++)
        bench("case 7 and its kin", 2, printed[i], strlen(printed[i]), 1, 0, 0);
}

/* One message, good as a whole or not at all. */
static void whole(const char *text, size_t many)
{
    bench(text, 4, text, strlen(text), many, 0, 0);
}

static void good_messages(void)
{
    static const char *const good[] = {
        "^SN;", "^SN00022;", "^RV;", "^RV01.23;", "^PWF;", "^PWF0750;", "^PWI0000;",
        "^PWR9999;", "^PWD0001;", "^FR14060;", "^FQ00000;", "^FS;", "^FS0;", "^FS5;",
        "^HS;", "^HS0;", "^HS1;", "^FT;", "^ft;", "^CC;", "^pWf0750;", "^hS1;", "^cc;",
        "^CC00-02-29T00:00:00;", "^CC99-12-31T23:59:59;", "^cC24-04-30T19:09:05;",
        "^I;", "^z;", "^A ;", "^RVM01.23;", "^HSAB1;", "^SNx;", "^FTA;", "^PW0750;",
        "^PWFX0750;", "^P;", "^S N;", "^KPA1500;", "^IP 192.168.1.207;"
    };
    size_t i;

    for (i = 0; i < sizeof good / sizeof *good; i++)
        whole(good[i], 1);
}

static void bad_messages(void)
{
    static const char *const bad[] = {
        "^;", "^", ";", "^S", "^SN", "SN;", "^1;", "^ SN;", "^@SN;", "^[;", "^`;", "^{;",
        "^SN0022;", "^SN000220;", "^SN0002 ;", "^SN 0022;", "^SN0002/;", "^SN0002:;",
        "^SN00022", "^SN00\03722;", "^SN00022\x7F;", "^SN\x1F;", "^SN\x7F;", "^SN\xB0;",
        "^A\x1F;", "^A\x7F;", "^A\x80;", "^A\xDE;", "^\xC1;",
        "^RV1.23;", "^RV01.2;", "^RV01,23;", "^RV0123;", "^RV01.234;", "^RV01.23 ;",
        "^PWF750;", "^PWF00750;", "^PWI-001;", "^PWR0x10;", "^PWD 750;", "^FR1406;",
        "^FQ14060.;", "^FS6;", "^FS9;", "^FS-;", "^FS00;", "^FS0 ;", "^HS2;", "^HS01;",
        "^HS 1;", "^HS/;", "^FT1;", "^FT ;", "^FT0T;",
        "^CC01-02-29T00:00:00;", "^CC00-00-01T00:00:00;", "^CC00-13-01T00:00:00;",
        "^CC00-19-01T00:00:00;", "^CC00-01-00T00:00:00;", "^CC00-01-32T00:00:00;",
        "^CC00-04-31T00:00:00;", "^CC00-02-30T00:00:00;", "^CC00-01-01T24:00:00;",
        "^CC00-01-01T00:60:00;", "^CC00-01-01T00:00:60;", "^CC00-01-01t00:00:00;",
        "^CC00-01-01 00:00:00;", "^CC00-01-01T00:00:0;", "^CC00-01-01T00:00:000;",
        "^CC00-01-01T00:00:00Z;", "^CC2000-01-01T00:00:00;", "^CC00-1-01T00:00:00;",
        "^CC00/01/01T00:00:00;", "^CC00-01-01T00.00.00;", "^CC00-01-01T00:00;", "^CC0;"
    };
    size_t i;

    for (i = 0; i < sizeof bad / sizeof *bad; i++)
        whole(bad[i], 0);
}

/* A caret, so many bytes of a text, and this behind; then a good message. */
static void long_message(size_t text, const char *end, size_t many,
                         uint32_t first, uint32_t second)
{
    char b[80];

    memset(b + 1, '~', text);
    b[0] = '^';
    b[1] = 'A';
    bench("a long text", 4, b,
          1 + text + (size_t)sprintf(b + 1 + text, "%s^FT;", end), many, first, second);
}

static void message_cases(void)
{
    good_messages();
    bad_messages();
    long_message(38, ";", 2, 0, 40);
    long_message(39, ";", 1, 41, 0);
    long_message(40, ";", 1, 42, 0);
    long_message(38, "", 1, 39, 0);
    long_message(39, "", 1, 40, 0);
    long_message(37, "^;", 1, 40, 0);
    long_message(38, "^I;", 2, 39, 42);
    long_message(20, "^I~~~~~~~~~~~~~~~~~;", 2, 21, 41);
    long_message(20, "^1~~~~~~~~~~~~~~~~~;", 1, 41, 0);
    bench("carets", 4, "^^^^FT;^^SN;", 12, 2, 3, 8);
    bench("semicolons", 4, ";;^FT;;^SN;", 11, 2, 2, 7);
    bench("broken off", 4, "^PWF07^PWF0750;", 15, 1, 6, 0);
    bench("cut off", 4, "^PWF0750;^PWF0750", 17, 1, 0, 0);
}

/* ---- Refusals ----------------------------------------------------------- */

static unsigned char large[LONGEST + 1];

/* As many frames as a capture can have, and room for one less or just enough. */
static void fullest(unsigned family, size_t many, size_t length)
{
    size_t count = 77;

    check(plain_list(family, large, LONGEST, places, many - 1, &count) == 4,
          "room one short");
    check(count == 77 && places[0] == UNTOUCHED, "refusals leave all alone");
    check(plain_list(family, large, LONGEST, places, many, &count) == 0
          && count == many && places[many - 1] == (many - 1) * length,
          "room just enough");
}

static void refusals(void)
{
    size_t count = 77, i;

    places[0] = UNTOUCHED;
    check(plain_list(0, large, 6, places, 1, &count) == 1, "family 0");
    check(plain_list(5, large, 6, places, 1, &count) == 1, "family 5");
    check(plain_list(5, large, LONGEST + 1, places, 1, &count) == 1,
          "family before length");
    make_capture(3, CLEAN, 1, large, LONGEST + 1);
    check(plain_list(3, large, LONGEST + 1, places, 0, &count) == 7,
          "length before room");
    fullest(3, 10922, 6);
    for (i = 0; i < LONGEST; i++)
        large[i] = (unsigned char)"^I;"[i % 3];
    places[0] = UNTOUCHED;
    fullest(4, 21845, 3);
    check(plain_list(1, NULL, 0, NULL, 0, &count) == 0 && count == 0,
          "nothing at all");
}

/* ---- Single frames with altered fields ---------------------------------- */

static unsigned long good_seen, bad_seen;

static void compare_one(unsigned family, const unsigned char *b, size_t n)
{
    size_t framed, many = slow_list(family, b, n, right, &framed);

    if (many > 0)
        good_seen++;
    else
        bad_seen++;
    check(as_expected(family, b, n, n, right, many), "an altered frame");
}

/* Each data byte of a report in turn takes each value, then a few bytes at
 * once take values that fields use; the sum is put right each time. */
static void altered_reports(void)
{
    static const char likely[] = "0123456789 .,xABKSORTLMHNtbarCDPWY";
    unsigned char b[76];
    char data[67], clean[67];
    unsigned i, value, turn, change;
    size_t n;

    for (turn = 0; turn < 4000 / share; turn++) {
        do {
            make_capture(1, CLEAN, turn * 8 + roll(8), b, 75);
        } while (b[3] != 0x43);
        memcpy(clean, b + 4, 67);
        for (i = 0; i < 67 && turn < 20 / share; i++)
            for (value = 0; value < 256; value++) {
                memcpy(data, clean, 67);
                data[i] = (char)value;
                n = wrap_report(b, data, turn % 2);
                compare_one(1, b, n);
            }
        for (i = 0; i < 30; i++) {
            memcpy(data, clean, 67);
            for (change = 1 + roll(3); change > 0; change--)
                data[roll(67)] = likely[roll(sizeof likely - 1)];
            n = wrap_report(b, data, turn % 2);
            compare_one(1, b, n);
        }
    }
}

/* Each byte behind the data of a report in turn takes each value; then five
 * bytes behind its check bytes are all that may mean something there, in
 * captures that end before or behind any of them. */
static void altered_ends(void)
{
    unsigned char b[80], clean[76];
    unsigned i, value, form, left;
    size_t n;

    for (form = 0; form < 2; form++) {
        n = wrap_report(clean, DATA_5, form);
        for (i = 71; i < n; i++)
            for (value = 0; value < 256; value++) {
                memcpy(b, clean, n);
                b[i] = (unsigned char)value;
                compare_one(1, b, n);
            }
    }
    for (value = 0; value < 5 * 5 * 5 * 5 * 5; value += share) {
        memcpy(b, clean, 73);
        for (i = 73, left = value; i < 78; i++, left /= 5)
            b[i] = (unsigned char)",\x0D\x0A\xAA-"[left % 5];
        for (n = 73; n <= 78; n++)
            compare_one(1, b, n);
    }
}

/* Changes, drops or adds a byte of a text of at most 150 bytes. */
static void alter_text(char *t, const char *likely)
{
    size_t n = strlen(t), at = roll((unsigned)n);
    char byte = likely[roll((unsigned)strlen(likely))];

    switch (roll(4)) {
    case 0:
        memmove(t + at, t + at + 1, n - at);
        break;
    case 1:
        memmove(t + at + 1, t + at, n - at + 1);
        t[at] = byte;
        break;
    default:
        t[at] = byte;
    }
}

static void altered_sentences(void)
{
    unsigned char b[200];
    char payload[200];
    unsigned turn, i, change;

    for (turn = 0; turn < 20000 / share; turn++) {
        make_capture(2, CLEAN, turn, b, 134);
        for (i = 0; b[i + 1] != '*'; i++)
            payload[i] = (char)b[i + 1];
        payload[i] = '\0';
        for (i = 0; i < 15 && strlen(payload) > 4; i++) {
            for (change = roll(3); change > 0; change--)
                alter_text(payload, "0123456789012345678902356789.,+-,AFGaAP\x7F");
            compare_one(2, b, wrap_sentence(b, payload));
        }
    }
}

/* A sentence 02 with these values, its first field at full width or not, so
 * that both of the lister's ways are taken. */
static void one_02(int full, unsigned grid, unsigned band, unsigned key)
{
    unsigned char b[200];
    char payload[160];

    sprintf(payload, "APA02,%s,010,2590,3169,0768,230,%0*u,057,%u,6,01,%u,15721",
            full ? "15017" : "7", full ? 3 : 1, grid, band, key);
    compare_one(2, b, wrap_sentence(b, payload));
}

/* Every grid voltage, band, key and mains tap that the digits can carry. */
static void limited_fields(void)
{
    unsigned char b[200];
    char payload[160];
    unsigned i, full;

    for (full = 0; full < 2; full++) {
        for (i = 0; i < 1000; i++)
            one_02((int)full, i, 1, 0);
        for (i = 0; i < 100; i++)
            one_02((int)full, 96, i / 10, i % 10);
        for (i = 0; i < 10; i++) {
            sprintf(payload, "APA03,%s,121,240,121,389,2370,000,%u,-000.0",
                    full ? "499" : "9", i);
            compare_one(2, b, wrap_sentence(b, payload));
        }
    }
}

/* Every code with every check byte, in both packet families. */
static void all_short_packets(void)
{
    unsigned code, sum;
    unsigned char b[6] = {0, 0, 0, 1, 0, 0};

    for (code = 0; code < 256; code++)
        for (sum = 0; sum < 256; sum++) {
            b[4] = (unsigned char)code;
            b[5] = (unsigned char)sum;
            b[0] = b[1] = b[2] = 0xAA;
            compare_one(1, b, 6);
            b[0] = b[1] = b[2] = 0x55;
            compare_one(3, b, 6);
        }
}

/* One message with these letters and this behind. */
static void named(const char *letters, const char *behind)
{
    char b[64];

    compare_one(4, (unsigned char *)b, (size_t)sprintf(b, "^%s%s;", letters, behind));
}

/* All names of one to three letters in capitals, and with one of them in the
 * other case or a fourth behind; each with nothing, digits and more behind. */
static void all_names(void)
{
    static const char *const behind[] = {"", "1", "0750", "00022", "01.23", " "};
    char letters[5];
    unsigned name, i;

    for (name = 0; name < 27 * 27 * 26; name += 1 + roll(2 * share - 1)) {
        memset(letters, 0, sizeof letters);
        letters[0] = (char)('A' + name % 26);
        if (name / 26 % 27 > 0)
            letters[1] = (char)('@' + name / 26 % 27);
        if (letters[1] != '\0' && name / 26 / 27 > 0)
            letters[2] = (char)('@' + name / 26 / 27);
        for (i = 0; i < sizeof behind / sizeof *behind; i++)
            named(letters, behind[i]);
        letters[roll((unsigned)strlen(letters))] ^= 0x20;
        named(letters, behind[roll(6)]);
        letters[strlen(letters)] = (char)('a' + roll(26));
        named(letters, behind[roll(6)]);
    }
}

/* Each two digits of a clock in turn take each number; months and days go
 * through all of theirs together, in a year of 366 days and one of 365. */
static void all_clocks(void)
{
    char b[32];
    unsigned year, i, k;

    for (year = 0; year < 2; year++)
        for (i = 0; i < 100 * 100; i += 1 + roll(2 * share - 1)) {
            sprintf(b, "^CC%02u-%02u-%02uT12:34:56;", 40 + year, i / 100, i % 100);
            compare_one(4, (unsigned char *)b, 21);
        }
    for (year = 0; year < 100; year++)
        for (i = 28; i < 31; i++) {
            sprintf(b, "^CC%02u-02-%02uT12:34:56;", year, i);
            compare_one(4, (unsigned char *)b, 21);
        }
    for (i = 0; i < 100; i++)
        for (k = 12; k <= 18; k += 3) {
            sprintf(b, "^CC00-02-29T00:00:00;");
            b[k] = (char)('0' + i / 10);
            b[k + 1] = (char)('0' + i % 10);
            compare_one(4, (unsigned char *)b, 21);
        }
}

/* Each byte of a made message in turn takes each value; then bytes are changed,
 * dropped or added. */
static void altered_messages(void)
{
    unsigned char b[80];
    char text[80];
    unsigned turn, i, value, change, n;

    for (turn = 0; turn < 20000 / share; turn++) {
        make_capture(4, CLEAN, turn, b, 40);
        for (n = 0; b[n] != ';'; n++)
            text[n] = (char)b[n];
        memcpy(text + n, ";", 2);
        for (i = 0; i <= n && turn < 200 / share; i++)
            for (value = 0; value < 256; value++) {
                memcpy(b, text, n + 1);
                b[i] = (unsigned char)value;
                compare_one(4, b, n + 1);
            }
        for (i = 0; i < 10 && strlen(text) > 1; i++) {
            for (change = 1 + roll(2); change > 0; change--)
                alter_text(text, "0123456789^;;SNRVPWFIRDQHCTMsnpwf.-:T \x1F\x7F");
            compare_one(4, (unsigned char *)text, strlen(text));
        }
    }
}

/* ---- Made captures ------------------------------------------------------ */

/* Room: none, a few, just short, just enough, or plenty. */
static size_t some_room(size_t many, size_t n)
{
    switch (roll(5)) {
    case 0: return roll((unsigned)many + 2);
    case 1: return many > 0 ? many - 1 : 0;
    case 2: return many;
    case 3: return many + roll(20);
    default: return n;
    }
}

static unsigned long frames_seen[5][KINDS];

static void one_capture(unsigned family, unsigned kind, uint64_t seed, size_t n)
{
    size_t framed, many;
    char what[80];

    make_capture(family, kind, seed, large, n);
    many = slow_list(family, large, n, right, &framed);
    frames_seen[family][kind] += many;
    sprintf(what, "family %u %s seed %lu", family, kind_name(kind),
            (unsigned long)seed);
    check(as_expected(family, large, n, some_room(many, n), right, many), what);
    if (kind == CLEAN)
        check(n - framed < 134, "a clean capture is frames up to its end");
}

static void made_captures(void)
{
    unsigned family, kind, seed;

    for (family = 1; family <= 4; family++)
        for (kind = 0; kind < KINDS; kind++) {
            for (seed = 0; seed < 2500 / share; seed++)
                one_capture(family, kind, seed, roll(seed % 5 < 2 ? 160 : 2500));
            for (seed = 2500; seed < 2500 + 10 / share; seed++)
                one_capture(family, kind, seed, LONGEST - roll(3));
            printf("family %u %-14s %8lu frames in %u captures\n", family,
                   kind_name(kind), frames_seen[family][kind],
                   2500 / share + 10 / share);
        }
}

int main(int argc, char **argv)
{
    if (argc > 1 && atoi(argv[1]) > 1)
        share = (unsigned)atoi(argv[1]);
    packet_cases();
    report_cases(0);
    report_cases(1);
    line_end_cases();
    broken_off_cases();
    sentence_cases();
    printed_sentences();
    message_cases();
    refusals();
    printf("bench cases and refusals: %lu checks, %lu wrong\n", tried, failed);
    all_short_packets();
    limited_fields();
    altered_reports();
    altered_ends();
    altered_sentences();
    all_names();
    all_clocks();
    altered_messages();
    printf("single frames: %lu with a good frame, %lu without\n",
           good_seen, bad_seen);
    made_captures();
    printf("%lu checks, %lu wrong\n", tried, failed);
    return failed == 0 ? 0 : 1;
}
