/* The calls of calls.c with messages of the KPA1500: each kind at the ends of its values and one beyond, and
 * what is no message. */
#include "calls.h"

const int64_t values_38[AMP_OTHER_VALUES] = {
    0x41424344, 0x45464748, 0x494A4B4C, 0x4D4E4F50, 0x51525354, 0x55565758, 0x595A4142, 0x43444546,
    0x4748494A, 0x4B4C
};
const int64_t clock_values[AMP_CC_VALUES] = {17, 7, 31, 13, 15, 0};

/* Responses as the writer makes them, and what is read of them. */
struct response {
    const char *text;
    uint32_t code;
    size_t many;
    int64_t values[AMP_CC_VALUES];
};

static const struct response responses[] = {
    {"^SN00000;", AMP_SN, 1, {0}}, {"^SN00022;", AMP_SN, 1, {22}}, {"^SN99999;", AMP_SN, 1, {99999}},
    {"^RV00.00;", AMP_RV, 2, {0, 0}}, {"^RV01.64;", AMP_RV, 2, {1, 64}}, {"^RV99.99;", AMP_RV, 2, {99, 99}},
    {"^PWF0000;", AMP_PWF, 1, {0}}, {"^PWF1487;", AMP_PWF, 1, {1487}}, {"^PWF9999;", AMP_PWF, 1, {9999}},
    {"^PWI0041;", AMP_PWI, 1, {41}}, {"^PWI9999;", AMP_PWI, 1, {9999}},
    {"^PWR0012;", AMP_PWR, 1, {12}}, {"^PWR9999;", AMP_PWR, 1, {9999}},
    {"^PWD1106;", AMP_PWD, 1, {1106}}, {"^PWD9999;", AMP_PWD, 1, {9999}},
    {"^FR00000;", AMP_FR, 1, {0}}, {"^FR14050;", AMP_FR, 1, {14050}}, {"^FR99999;", AMP_FR, 1, {99999}},
    {"^FQ14048;", AMP_FQ, 1, {14048}}, {"^FQ99999;", AMP_FQ, 1, {99999}},
    {"^FS0;", AMP_FS, 1, {0}}, {"^FS5;", AMP_FS, 1, {5}},
    {"^HS0;", AMP_HS, 1, {0}}, {"^HS1;", AMP_HS, 1, {1}},
    {"^CC00-01-01T00:00:00;", AMP_CC, 6, {0, 1, 1, 0, 0, 0}},
    {"^CC00-02-29T12:00:00;", AMP_CC, 6, {0, 2, 29, 12, 0, 0}},
    {CLOCK, AMP_CC, 6, {17, 7, 31, 13, 15, 0}},
    {"^CC99-12-31T23:59:59;", AMP_CC, 6, {99, 12, 31, 23, 59, 59}},
    {"^FT;", AMP_FT, 0, {0}},
};

static const struct response questions[] = {
    {"^SN;", AMP_SN, 0, {0}}, {"^RV;", AMP_RV, 0, {0}}, {"^PWF;", AMP_PWF, 0, {0}},
    {"^PWI;", AMP_PWI, 0, {0}}, {"^PWR;", AMP_PWR, 0, {0}}, {"^PWD;", AMP_PWD, 0, {0}},
    {"^FR;", AMP_FR, 0, {0}}, {"^FQ;", AMP_FQ, 0, {0}}, {"^FS;", AMP_FS, 0, {0}},
    {"^HS;", AMP_HS, 0, {0}}, {"^CC;", AMP_CC, 0, {0}},
};

/* A text as one lent slice, where it is no literal. */
#define TEXT(text) (const uint8_t *)(text), strlen(text)

/* Read with just the room, and written again: as many values as it has, and as many bytes. With one of
 * either less, it is refused. */
static void both_ways(uint32_t kind, const struct response *r)
{
    size_t n = strlen(r->text);

    reads(r->text, 4, TEXT(r->text), kind, r->code, r->values, r->many);
    writes(r->text, kind, r->code, r->values, r->many, TEXT(r->text));
    does_not_write(r->text, kind, r->code, r->values, r->many, n - 1, AMP_NO_ROOM);
    does_not_write(r->text, kind, r->code, r->values, r->many, 0, AMP_NO_ROOM);
    if (r->many > 0) {
        does_not_write(r->text, kind, r->code, r->values, r->many - 1, 160, AMP_NO_RECORD);
        does_not_write(r->text, kind, r->code, r->values, r->many - 1, 0, AMP_NO_RECORD);
    }
}

static void listed(void)
{
    size_t i;

    for (i = 0; i < sizeof responses / sizeof *responses; i++)
        both_ways(AMP_RESPONSE, &responses[i]);
    for (i = 0; i < sizeof questions / sizeof *questions; i++)
        both_ways(AMP_QUESTION, &questions[i]);
}

/* Either case, which the writer makes capitals; letters that only begin as listed ones; the longest. */
static void letters(void)
{
    static const int64_t kpa[AMP_OTHER_VALUES] = {0x4B5041}, rvm[AMP_OTHER_VALUES] = {0x52564D};
    static const int64_t one[AMP_OTHER_VALUES] = {'Z'}, five[AMP_OTHER_VALUES] = {0x41424344, 'E'};
    static const int64_t version[] = {1, 64}, watts[] = {1487};

    reads("lower case", 4, SLICE("^rv01.64;"), AMP_RESPONSE, AMP_RV, version, 2);
    reads("mixed case", 4, SLICE("^pWf1487;"), AMP_RESPONSE, AMP_PWF, watts, 1);
    reads("a lower question", 4, SLICE("^cc;"), AMP_QUESTION, AMP_CC, NULL, 0);
    reads("a lower clock", 4, SLICE("^cc17-07-31T13:15:00;"), AMP_RESPONSE, AMP_CC, clock_values, 6);
    reads("a lower tune", 4, SLICE("^ft;"), AMP_RESPONSE, AMP_FT, NULL, 0);
    reads("RVM is not RV", 4, SLICE("^RVM01.64;"), AMP_OTHER, 0, rvm, AMP_OTHER_VALUES);
    reads("digits behind letters", 4, SLICE("^kpa1500;"), AMP_OTHER, 0, kpa, AMP_OTHER_VALUES);
    reads("one letter", 4, SLICE("^z;"), AMP_OTHER, 0, one, AMP_OTHER_VALUES);
    reads("five letters", 4, SLICE("^ABCDE ~;"), AMP_OTHER, 0, five, AMP_OTHER_VALUES);
    reads("38 letters", 4, SLICE(OTHER_38), AMP_OTHER, 0, values_38, AMP_OTHER_VALUES);
}

/* What is no message: the frame's own rules, then listed letters with anything else behind them. */
static void not_good(void)
{
    static const char *const bad[] = {
        "", "^", ";", "^;", "^F", "FR;", "^1;", "^ FR;", "^FR;;", "^FR; ", "^^FR;", "^F^R;", "^FR14050",
        "^FR\x1F;", "^FR\x7F;", "^ZZ\x80;", "^" LETTERS_38 "M;",
        "^SN0002;", "^SN000022;", "^SN0002A;", "^SN 0022;", "^RV1.64;", "^RV01,64;", "^RV01.6;", "^RV0164;",
        "^PWF148;", "^PWF01487;", "^PWI-041;", "^FR1405;", "^FR14.05;", "^FQ014048;", "^FS6;", "^FS00;", "^FS ;",
        "^HS2;", "^HS00;", "^HS050;", "^FT0;", "^FT ;",
        "^CC17-07-31t13:15:00;", "^CC17-07-31 13:15:00;", "^CC17-7-31T13:15:00;", "^CC01-02-29T00:00:00;",
        "^CC00-02-30T00:00:00;", "^CC17-00-10T00:00:00;", "^CC17-13-10T00:00:00;", "^CC17-04-31T00:00:00;",
        "^CC17-07-00T00:00:00;", "^CC17-07-32T00:00:00;", "^CC17-07-31T24:00:00;", "^CC17-07-31T13:60:00;",
        "^CC17-07-31T13:15:60;", "^CC17-07-31T13:15:0;", "^CC17-07-31T13:15;"
    };
    size_t i;

    for (i = 0; i < sizeof bad / sizeof *bad; i++) {
        does_not_read(bad[i], 4, TEXT(bad[i]), AMP_ROW, AMP_NOT_GOOD);
        does_not_read(bad[i], 4, TEXT(bad[i]), 0, AMP_NOT_GOOD);
    }
    does_not_read("a zero byte", 4, SLICE("^ZZ\0;"), AMP_ROW, AMP_NOT_GOOD);
    does_not_read("another family's", 1, SLICE("^FR;"), AMP_ROW, AMP_NOT_GOOD);
    does_not_read("an SPE report", 4, SLICE(CASE_5), AMP_ROW, AMP_NOT_GOOD);
    does_not_read("no family before not good", 5, SLICE("^FR;"), 0, AMP_NO_FAMILY);
    does_not_read("15 places for other letters", 4, SLICE("^I;"), 15, AMP_NO_ROOM);
}

/* Values one beyond their ends, and what 32 bits would cut to a good one. */
static void out_of_range(void)
{
    static const struct response bad[] = {
        {"SN", AMP_SN, 1, {100000}}, {"SN", AMP_SN, 1, {-1}}, {"RV", AMP_RV, 2, {100, 0}},
        {"RV", AMP_RV, 2, {0, 100}}, {"RV", AMP_RV, 2, {0, -1}}, {"PWF", AMP_PWF, 1, {10000}},
        {"PWI", AMP_PWI, 1, {10000}}, {"PWR", AMP_PWR, 1, {10000}}, {"PWD", AMP_PWD, 1, {10000}},
        {"PWF", AMP_PWF, 1, {INT64_C(0x100000000)}}, {"PWF", AMP_PWF, 1, {INT64_MIN}},
        {"FR", AMP_FR, 1, {100000}}, {"FR", AMP_FR, 1, {INT64_MAX}}, {"FQ", AMP_FQ, 1, {100000}},
        {"FS", AMP_FS, 1, {6}}, {"FS", AMP_FS, 1, {-1}}, {"FS", AMP_FS, 1, {256}}, {"HS", AMP_HS, 1, {2}},
        {"HS", AMP_HS, 1, {INT64_C(0x100000001)}},
        {"year", AMP_CC, 6, {100, 1, 1, 0, 0, 0}}, {"01-02-29", AMP_CC, 6, {1, 2, 29, 0, 0, 0}},
        {"00-02-30", AMP_CC, 6, {0, 2, 30, 0, 0, 0}}, {"month 0", AMP_CC, 6, {17, 0, 10, 0, 0, 0}},
        {"month 13", AMP_CC, 6, {17, 13, 10, 0, 0, 0}}, {"day 0", AMP_CC, 6, {17, 7, 0, 0, 0, 0}},
        {"day 32", AMP_CC, 6, {17, 7, 32, 0, 0, 0}}, {"04-31", AMP_CC, 6, {17, 4, 31, 0, 0, 0}},
        {"hour 24", AMP_CC, 6, {17, 7, 31, 24, 0, 0}}, {"minute 60", AMP_CC, 6, {17, 7, 31, 13, 60, 0}},
        {"second 60", AMP_CC, 6, {17, 7, 31, 13, 15, 60}}, {"second -1", AMP_CC, 6, {17, 7, 31, 13, 15, -1}},
    };
    size_t i;

    for (i = 0; i < sizeof bad / sizeof *bad; i++) {
        does_not_write(bad[i].text, AMP_RESPONSE, bad[i].code, bad[i].values, bad[i].many, 160, AMP_NO_RECORD);
        does_not_write(bad[i].text, AMP_RESPONSE, bad[i].code, bad[i].values, bad[i].many, 0, AMP_NO_RECORD);
    }
}

/* Codes that are not listed, also those that begin or end as listed ones; FT, which is no question; and what
 * has no writer. */
static void no_writer(void)
{
    static const uint32_t codes[] = {
        0, 1, 0x46, 0x4600, 0x6672, 0x5257, 0x5057, 0x50574B, 0x52564D, 0x1004652, 0x46520000, UINT32_MAX
    };
    static const int64_t zeros[AMP_STATUS_VALUES];
    size_t i;

    for (i = 0; i < sizeof codes / sizeof *codes; i++) {
        does_not_write("a code, asked", AMP_QUESTION, codes[i], zeros, AMP_STATUS_VALUES, 160, AMP_NO_RECORD);
        does_not_write("a code, told", AMP_RESPONSE, codes[i], zeros, AMP_STATUS_VALUES, 160, AMP_NO_RECORD);
        does_not_write("a code before no room", AMP_RESPONSE, codes[i], zeros, 0, 0, AMP_NO_RECORD);
    }
    does_not_write("FT asked", AMP_QUESTION, AMP_FT, zeros, 0, 160, AMP_NO_RECORD);
    does_not_write("FT asked, no room", AMP_QUESTION, AMP_FT, zeros, 0, 0, AMP_NO_RECORD);
    does_not_write("other letters", AMP_OTHER, 0, values_38, AMP_OTHER_VALUES, 160, AMP_NO_RECORD);
    does_not_write("other, a listed code", AMP_OTHER, AMP_FR, zeros, AMP_OTHER_VALUES, 160, AMP_NO_RECORD);
    does_not_write("kind 10", 10, AMP_FR, zeros, AMP_STATUS_VALUES, 160, AMP_NO_RECORD);
    does_not_write("done", AMP_DONE, AMP_FR, zeros, AMP_STATUS_VALUES, 160, AMP_NO_RECORD);
    writes("values behind are not looked at", AMP_RESPONSE, AMP_HS, zeros, AMP_STATUS_VALUES, SLICE("^HS0;"));
    writes("nor those of a question", AMP_QUESTION, AMP_FR, values_38, AMP_OTHER_VALUES, SLICE("^FR;"));
    writes("nor those of FT", AMP_RESPONSE, AMP_FT, values_38, AMP_OTHER_VALUES, SLICE("^FT;"));
}

static void listing_messages(void)
{
    lists("a question and a response", 4, SLICE("^FR;^FR14050;"), 2, 0, 4);
    lists("null commands between", 4, SLICE(";;^FR;;^FT;"), 2, 2, 7);
    lists("one that breaks off", 4, SLICE("^PWF14^FR;"), 1, 6, 0);
    lists("carets", 4, SLICE("^^^I;"), 1, 2, 0);
    lists("not good, then good", 4, SLICE("^FS6;^FS5;"), 1, 5, 0);
    lists("the longest", 4, SLICE(OTHER_38 "^I;"), 2, 0, 40);
    lists("one longer", 4, SLICE("^" LETTERS_38 "M;^I;"), 1, 41, 0);
    lists("no semicolon", 4, SLICE("^FR14050"), 0, 0, 0);
    does_not_list("one place for two", 4, SLICE("^FR;^FT;"), 1, AMP_NO_ROOM);
    next_is("the first", 4, SLICE("^FR;^FR14050;"), 0, 0, 4, 0);
    next_is("the second", 4, SLICE("^FR;^FR14050;"), 1, 0, 9, 4);
    next_is("the longest, next", 4, SLICE("x" OTHER_38), 0, 0, 40, 1);
    no_next("none behind", 4, SLICE("^FR;^FR14050;"), 5, 0);
    no_next("a response is no report", 4, SLICE("^FR;^FR14050;"), 0, 1);
}

/* The most frames that a capture can have: 21,845 of three bytes. */
#define MOST 21845u

static void most_messages(void)
{
    static uint8_t capture[65536];
    static uint32_t starts[MOST];
    size_t count = 77, i;
    int right = 1;

    for (i = 0; i < MOST; i++)
        memcpy(capture + 3 * i, "^I;", 3);
    check(amp_list(4, capture, sizeof capture, starts, MOST - 1, &count) == AMP_NO_ROOM && count == 77,
          "one place too few for the most frames");
    check(amp_list(4, capture, sizeof capture, starts, MOST, &count) == 0 && count == MOST, "the most frames");
    for (i = 0; i < MOST; i++)
        right = right && starts[i] == 3 * i;
    check(right, "the starts of the most frames");
    next_is("the last of them", 4, capture, sizeof capture, 3 * MOST - 5, 0, 3, 3 * MOST - 3);
}

void message_calls(void)
{
    check(AMP_CC_VALUES == 6 && AMP_OTHER_VALUES == 10, "values of messages");
    check(AMP_FR == ('F' << 8 | 'R') && AMP_PWD == ('P' << 16 | 'W' << 8 | 'D'), "letters as codes");
    listed();
    letters();
    not_good();
    out_of_range();
    no_writer();
    listing_messages();
    most_messages();
}
