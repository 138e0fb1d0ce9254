/* Makes good frames by chance, for captures.
 *
 * The mix of frames, since their sizes differ much:
 *   family 1: 7 in 8 are reports, one half of them 75 bytes, the other 76
 *             with a comma before the line end; 1 in 8 are acknowledgements
 *             of 6.  So about 99 bytes in 100 belong to reports.
 *   family 2: 8 in 16 are sentence 02 (mostly 63 bytes), 4 in 16 are 03
 *             (mostly 50), 2 in 16 are 05 (32), 2 in 16 are others of 11 to
 *             134 bytes.  1 in 8 of the 02 and 03 has fields of any allowed
 *             width, the others have the widths a writer uses.
 *   family 3: commands of 6 bytes; half ask for the status, half are any.
 *   family 4: 6 in 16 are questions (4 or 5 bytes), 7 in 16 are responses to
 *             them (5 to 21, mostly 9), 1 in 16 is FT, 2 in 16 are others of 3
 *             to 40 bytes.  Of questions and responses all letters come up
 *             equally often.  1 message in 8 has letters of either case, the
 *             others have capitals.
 */
#include "made.h"

/* ---- The generator of chances ------------------------------------------- */

/* splitmix64: small, quick, and any seed will do. */
static uint64_t chance(uint64_t *state)
{
    uint64_t z = *state += UINT64_C(0x9E3779B97F4A7C15);

    z = (z ^ z >> 30) * UINT64_C(0xBF58476D1CE4E5B9);
    z = (z ^ z >> 27) * UINT64_C(0x94D049BB133111EB);
    return z ^ z >> 31;
}

/* A number below limit; the slight unevenness does no harm here. */
unsigned below(uint64_t *state, unsigned limit)
{
    return (unsigned)((chance(state) >> 32) % limit);
}

/* ---- A frame being put together ----------------------------------------- */

void put(struct frame *f, unsigned byte)
{
    f->bytes[f->length++] = (unsigned char)byte;
}

void put_text(struct frame *f, const char *text)
{
    while (*text != '\0')
        put(f, (unsigned char)*text++);
}

/* One of the bytes of a text. */
static void put_one_of(struct frame *f, uint64_t *state, const char *text)
{
    unsigned many = 0;

    while (text[many] != '\0')
        many++;
    put(f, (unsigned char)text[below(state, many)]);
}

void put_digits(struct frame *f, uint64_t *state, unsigned many)
{
    while (many-- > 0)
        put(f, '0' + below(state, 10));
}

/* ---- SPE packets -------------------------------------------------------- */

/* Status asks come last: an acknowledgement draws from the first 19 only. */
const unsigned char codes[20] = {
    0x01, 0x02, 0x03, 0x04, 0x05, 0x06, 0x07, 0x08, 0x09, 0x0A,
    0x0B, 0x0C, 0x0D, 0x0E, 0x0F, 0x10, 0x11, 0x82, 0x83, 0x90
};

void marks_and_count(struct frame *f, unsigned mark, unsigned count)
{
    put(f, mark);
    put(f, mark);
    put(f, mark);
    put(f, count);
}

static void short_packet(struct frame *f, unsigned mark, unsigned code)
{
    marks_and_count(f, mark, 1);
    put(f, code);
    put(f, code);
}

/* Some spaces, then digits, width places in all. */
static void put_padded(struct frame *f, uint64_t *state, unsigned width)
{
    unsigned spaces = below(state, width);

    put_text(f, &"    "[4 - spaces]);
    put_digits(f, state, width - spaces);
}

/* The fields from the ID to the power level, each with the comma before it. */
static void put_settings(struct frame *f, uint64_t *state, int is_20k)
{
    const char *antennas = is_20k ? "0123456" : "01234";
    unsigned band = below(state, is_20k ? 11 : 12);

    put_text(f, is_20k ? ",20K," : ",13K,");
    put_one_of(f, state, "SO");
    put(f, ',');
    put_one_of(f, state, "RT");
    put(f, ',');
    put_one_of(f, state, is_20k ? "x" : "AB");
    put(f, ',');
    put_one_of(f, state, "12");
    put(f, ',');
    put(f, '0' + band / 10);
    put(f, '0' + band % 10);
    put(f, ',');
    put_one_of(f, state, antennas);
    put_one_of(f, state, "tba");
    put(f, ',');
    put_one_of(f, state, antennas);
    put_text(f, "r,");
    put_one_of(f, state, "LMH");
}

/* A number with two places before the point and part digits behind it. */
static void put_pointed(struct frame *f, uint64_t *state, unsigned part)
{
    put(f, ',');
    put_padded(f, state, 2);
    put(f, '.');
    put_digits(f, state, part);
}

/* The fields from the watts to the temperatures. */
static void put_readings(struct frame *f, uint64_t *state, int is_20k)
{
    static const char *const zeros[3] = {",  0", ", 00", ",000"};
    unsigned i;

    put(f, ',');
    if (below(state, 2) == 0)
        put_digits(f, state, 4);
    else
        put_padded(f, state, 4);
    put_pointed(f, state, 2);
    put_pointed(f, state, 2);
    put_pointed(f, state, 1);
    put_pointed(f, state, 1);
    put(f, ',');
    put_padded(f, state, 3);
    for (i = 0; i < 2; i++) {
        if (is_20k) {
            put(f, ',');
            put_padded(f, state, 3);
        } else {
            put_text(f, zeros[below(state, 3)]);
        }
    }
}

static void report(struct frame *f, uint64_t *state)
{
    int is_20k = below(state, 2) == 0, comma = below(state, 2) == 0;
    unsigned sum = 0;
    size_t i;

    marks_and_count(f, 0xAA, 0x43);
    put_settings(f, state, is_20k);
    put_readings(f, state, is_20k);
    put(f, ',');
    put_one_of(f, state, "MASBPOYWKRTCN");
    put(f, ',');
    put_one_of(f, state, "SADHCN");
    put(f, ',');
    for (i = 4; i < f->length; i++)
        sum += f->bytes[i];
    put(f, sum % 256);
    put(f, sum / 256);
    if (comma)
        put(f, ',');
    put(f, 0x0D);
    put(f, 0x0A);
}

/* ---- Alpha sentences ---------------------------------------------------- */

static const char hex_digits[] = "0123456789ABCDEF";

static void put_byte_in_hex(struct frame *f, unsigned byte)
{
    put(f, (unsigned char)hex_digits[byte / 16 % 16]);
    put(f, (unsigned char)hex_digits[byte % 16]);
}

/* Ends a sentence whose payload stands from the second byte on. */
void put_sums(struct frame *f)
{
    unsigned sum1 = 0, sum2 = 0;
    size_t i;

    for (i = 1; i < f->length; i++) {
        sum1 = (sum1 + f->bytes[i]) % 256;
        sum2 = (sum2 + sum1) % 256;
    }
    put(f, '*');
    put_byte_in_hex(f, sum2);
    put_byte_in_hex(f, sum1);
}

/* A comma and a number from least to most, in width digits, or in as many as
 * it needs when the sentence is of the loose sort. */
static void put_decimal(struct frame *f, uint64_t *state, unsigned width,
                        unsigned least, unsigned most, int loose)
{
    unsigned value = least + below(state, most - least + 1);
    unsigned unit = 1, i;

    if (loose && below(state, 2) == 0)
        value = least + value % 10 % (most - least + 1);
    for (i = 1; i < width; i++)
        unit *= 10;
    put(f, ',');
    while (loose && unit > 1 && value / unit == 0)
        unit /= 10;
    for (; unit > 0; unit /= 10)
        put(f, '0' + value / unit % 10);
}

/* The same for many fields, each with its width, its least and its most. */
static void put_decimals(struct frame *f, uint64_t *state,
                         const unsigned (*fields)[3], unsigned many, int loose)
{
    unsigned i;

    for (i = 0; i < many; i++)
        put_decimal(f, state, fields[i][0], fields[i][1], fields[i][2], loose);
}

static void sentence_02(struct frame *f, uint64_t *state, int loose)
{
    static const unsigned fields[13][3] = {
        {5, 0, 99999}, {3, 10, 999}, {4, 0, 9999}, {4, 0, 9999}, {4, 0, 9999},
        {3, 0, 999}, {3, 0, 255}, {3, 0, 999}, {1, 1, 9}, {1, 0, 9},
        {2, 0, 99}, {1, 0, 1}, {5, 0, 99999}
    };

    put_text(f, "$APA02");
    put_decimals(f, state, fields, 13, loose);
    put_sums(f);
}

static void sentence_03(struct frame *f, uint64_t *state, int loose)
{
    static const unsigned fields[8][3] = {
        {3, 0, 999}, {3, 0, 999}, {3, 0, 999}, {3, 0, 999}, {3, 0, 999},
        {4, 0, 9999}, {3, 0, 999}, {1, 1, 5}
    };

    put_text(f, "$APA03");
    put_decimals(f, state, fields, 8, loose);
    put(f, ',');
    put_one_of(f, state, "+++-");
    put_digits(f, state, loose ? 1 + below(state, 3) : 3);
    put(f, '.');
    put_digits(f, state, 1);
    put_sums(f);
}

static void sentence_05(struct frame *f, uint64_t *state)
{
    unsigned i;

    put_text(f, "$APA05");
    for (i = 0; i < 7; i++) {
        put(f, ',');
        put_byte_in_hex(f, below(state, 256));
    }
    put_sums(f);
}

/* A sentence that has no record: nothing behind its number, or a comma and
 * from 0 to 122 further bytes of any kind a payload may hold. */
static void sentence_other(struct frame *f, uint64_t *state)
{
    static const char *const numbers[] = {
        "00", "01", "04", "06", "07", "08", "09", "10", "11", "12", "25", "99"
    };
    unsigned further = below(state, 124), byte;

    put_text(f, "$APA");
    put_text(f, numbers[below(state, sizeof numbers / sizeof *numbers)]);
    if (further > 0)
        put(f, ',');
    for (; further > 1; further--) {
        byte = 0x20 + below(state, 0x5F);
        put(f, byte == '$' || byte == '*' ? ',' : byte);
    }
    put_sums(f);
}

/* ---- Messages of the KPA1500 -------------------------------------------- */

/* Letters as they are, or each of them in either case. */
static void put_letters(struct frame *f, uint64_t *state, const char *letters,
                        int loose)
{
    for (; *letters != '\0'; letters++)
        put(f, (unsigned char)*letters
               + (loose && below(state, 2) == 0 ? 'a' - 'A' : 0u));
}

static void put_two(struct frame *f, unsigned value, const char *behind)
{
    put(f, '0' + value / 10);
    put(f, '0' + value % 10);
    put_text(f, behind);
}

static void put_clock(struct frame *f, uint64_t *state)
{
    static const unsigned char days[12] =
        {31, 28, 31, 30, 31, 30, 31, 31, 30, 31, 30, 31};
    unsigned year = below(state, 100), month = below(state, 12);
    unsigned leap = month == 1 && year % 4 == 0;

    put_two(f, year, "-");
    put_two(f, month + 1, "-");
    put_two(f, 1 + below(state, days[month] + leap), "T");
    put_two(f, below(state, 24), ":");
    put_two(f, below(state, 60), ":");
    put_two(f, below(state, 60), "");
}

/* The letters that have a question and a response, and how many digits the
 * response has where it is only digits.  RV, FS, HS and CC come last. */
#define LISTED 11u
static const struct {
    const char *letters;
    unsigned digits;
} listed[LISTED] = {
    {"SN", 5}, {"FR", 5}, {"FQ", 5}, {"PWF", 4}, {"PWI", 4}, {"PWR", 4},
    {"PWD", 4}, {"RV", 0}, {"FS", 0}, {"HS", 0}, {"CC", 0}
};
enum { RV = 7, FS = 8, HS = 9 };

static void put_content(struct frame *f, uint64_t *state, unsigned which)
{
    if (which < RV) {
        put_digits(f, state, listed[which].digits);
    } else if (which == RV) {
        put_two(f, below(state, 100), ".");
        put_two(f, below(state, 100), "");
    } else if (which == FS || which == HS) {
        put_one_of(f, state, which == FS ? "012345" : "01");
    } else {
        put_clock(f, state);
    }
}

void response(struct frame *f, uint64_t *state, int loose)
{
    unsigned which = below(state, LISTED);

    put(f, '^');
    put_letters(f, state, listed[which].letters, loose);
    put_content(f, state, which);
    put(f, ';');
}

/* A message with other letters.  No listed ones begin with these, so that
 * whatever stands behind them does not make them listed.  Half have at most 7
 * bytes there, half up to as many as there is room for. */
static void message_other(struct frame *f, uint64_t *state, int loose)
{
    static const char *const letters[] = {
        "I", "AI", "BN", "FL", "IP", "OS", "TM", "VI", "WS", "RVM", "STA", "BRX"
    };
    unsigned further, byte;

    put(f, '^');
    put_letters(f, state, letters[below(state, sizeof letters / sizeof *letters)],
                loose);
    further = below(state, below(state, 2) == 0 ? 8 : 40 - (unsigned)f->length);
    for (; further > 0; further--) {
        byte = 0x20 + below(state, 0x5F);
        put(f, byte == '^' || byte == ';' ? ' ' : byte);
    }
    put(f, ';');
}

static void message(struct frame *f, uint64_t *state)
{
    unsigned pick = below(state, 16);
    int loose = below(state, 8) == 0;

    if (pick >= 14) {
        message_other(f, state, loose);
    } else if (pick >= 7) {
        response(f, state, loose);
    } else {
        put(f, '^');
        put_letters(f, state,
                    pick == 6 ? "FT" : listed[below(state, LISTED)].letters, loose);
        put(f, ';');
    }
}

/* ---- Good frames of a family -------------------------------------------- */

void sentence(struct frame *f, uint64_t *state)
{
    unsigned pick = below(state, 16);
    int loose = below(state, 8) == 0;

    if (pick < 8)
        sentence_02(f, state, loose);
    else if (pick < 12)
        sentence_03(f, state, loose);
    else if (pick < 14)
        sentence_05(f, state);
    else
        sentence_other(f, state);
}

void good_frame(struct frame *f, unsigned family, uint64_t *state)
{
    f->length = 0;
    if (family == 2)
        sentence(f, state);
    else if (family == 4)
        message(f, state);
    else if (family == 3)
        short_packet(f, 0x55,
                     below(state, 2) == 0 ? 0x90 : codes[below(state, 20)]);
    else if (below(state, 8) == 0)
        short_packet(f, 0xAA, codes[below(state, 19)]);
    else
        report(f, state);
}
