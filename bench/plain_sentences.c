/* Reading whole sentences into rows, for the plain stream reader.
 *
 * Nearly all have the widths a writer uses, and for those each value stands at
 * a known place.  The others are read field by field.  Values are laid only
 * once a sentence is known to be good: a row of another answer has to be as it
 * was behind its head. */
#include "amp.h"
#include "plain_fields.h"
#include "plain_places.h"
#include "plain_tables.h"

/* ---- Layouts ------------------------------------------------------------ */

#define SENTENCE(AT, digit) IS(AT, '$') IS(AT, 'A') IS(AT, 'P') IS(AT, 'A') \
    IS(AT, '0') IS(AT, digit)
#define SUMS(AT) IS(AT, '*') ANY(AT) ANY(AT) ANY(AT) ANY(AT)
#define SENTENCE_02(AT) SENTENCE(AT, '2') \
    F4(AT) N_(AT) F3(AT) F4(AT) F4(AT) F4(AT) F3(AT) F3(AT) F3(AT) \
    C_(AT) AT('1', '9') C_(AT) N_(AT) C_(AT) N2(AT) C_(AT) AT('0', '1') \
    F4(AT) N_(AT) SUMS(AT)
#define SENTENCE_03(AT) SENTENCE(AT, '3') \
    F3(AT) F3(AT) F3(AT) F3(AT) F3(AT) F4(AT) F3(AT) C_(AT) AT('1', '5') \
    C_(AT) AT('+', '-') N2(AT) N_(AT) P_(AT) N_(AT) SUMS(AT)
#define SENTENCE_05(AT) SENTENCE(AT, '5') \
    FH(AT) FH(AT) FH(AT) FH(AT) FH(AT) FH(AT) FH(AT) SUMS(AT)

static const struct ranges sentence_02 = RANGES(SENTENCE_02), sentence_03 = RANGES(SENTENCE_03),
    sentence_05 = RANGES(SENTENCE_05);

/* Where the star of each stands. */
enum { STAR_02 = 58, STAR_03 = 44, STAR_05 = 27 };

/* ---- The sums of sentences ---------------------------------------------- */

static const char hex_digits[] = "0123456789ABCDEF";

/* Whether the four digits behind the star are the two sums, of which only the
 * low eight bits count. */
static inline int digits_are(const uint8_t *star, unsigned sum1, unsigned sum2)
{
    return star[1] == hex_digits[sum2 >> 4 & 15] && star[2] == hex_digits[sum2 & 15]
        && star[3] == hex_digits[sum1 >> 4 & 15] && star[4] == hex_digits[sum1 & 15];
}

/* Byte i of the payload counts in sum2 as often as there are bytes from it to
 * the star.  That lets sixteen be added at once; bytes at even and at odd
 * places are kept apart, for each to have sixteen bits.  The dollar sign is
 * counted with them and taken away again.  The last block reaches back into
 * bytes that are counted already, and those are masked out of it. */
static inline int good_sums(const uint8_t *b, size_t star)
{
    const pairs even = {16, 14, 12, 10, 8, 6, 4, 2}, odd = {15, 13, 11, 9, 7, 5, 3, 1};
    pairs sum1 = {0}, sum2 = {0}, v;
    size_t i;
    uint16_t behind;
    unsigned s1, s2;

    for (i = 0; i + BLOCK <= star; i += BLOCK) {
        v = (pairs)block_at(b + i);
        behind = (uint16_t)(star - i - BLOCK);
        sum1 += EVENS(v) + ODDS(v);
        sum2 += EVENS(v) * (even + behind) + ODDS(v) * (odd + behind);
    }
    if (i < star) {
        v = (pairs)(block_at(b + star - BLOCK) & last_of_block(star - i));
        sum1 += EVENS(v) + ODDS(v);
        sum2 += EVENS(v) * even + ODDS(v) * odd;
    }
    s1 = sum_of_pairs(sum1) - '$';
    s2 = sum_of_pairs(sum2 & 0xFF) - '$' * (unsigned)star;
    return digits_are(b + star, s1, s2);
}

/* The same for a sentence that has no sixteen bytes before its star. */
static int good_short_sums(const uint8_t *b, size_t star)
{
    unsigned sum1 = 0, sum2 = 0;
    size_t i;

    for (i = 1; i < star; i++) {
        sum1 += b[i];
        sum2 += sum1;
    }
    return digits_are(b + star, sum1, sum2);
}

/* ---- Sentences in the writer's widths ----------------------------------- */

static inline int64_t hex(const uint8_t *b)
{
    int64_t upper = b[0] <= '9' ? b[0] & 15 : b[0] - 'A' + 10;
    int64_t lower = b[1] <= '9' ? b[1] & 15 : b[1] - 'A' + 10;

    return upper << 4 | lower;
}

static inline void lay_head(int64_t *row, int64_t number)
{
    row[AMP_KIND] = AMP_SENTENCE;
    row[AMP_CODE] = number;
}

static size_t written_02(const uint8_t *b, int64_t *row)
{
    int64_t *v = row + AMP_VALUES, grid = three(b + 36);

    if (!all_set(fits(block_at(b), &sentence_02, 0) & fits(block_at(b + 16), &sentence_02, 16)
                 & fits(block_at(b + 32), &sentence_02, 32)
                 & fits(block_at(b + 47), &sentence_02, 47))
        || grid > 255 || !good_sums(b, STAR_02))
        return 0;
    lay_head(row, 2);
    v[AMP_02_PFWD] = four(b + 7) * 10 + digit(b[11]);
    v[AMP_02_SWR] = three(b + 13);
    v[AMP_02_PIN] = four(b + 17);
    v[AMP_02_VP] = four(b + 22);
    v[AMP_02_IP] = four(b + 27);
    v[AMP_02_GAIN] = three(b + 32);
    v[AMP_02_VG] = grid;
    v[AMP_02_IG] = three(b + 40);
    v[AMP_02_BAND] = digit(b[44]);
    v[AMP_02_STATE] = digit(b[46]);
    v[AMP_02_FAULT] = two(b + 48);
    v[AMP_02_KEY] = digit(b[51]);
    v[AMP_02_PEP] = four(b + 53) * 10 + digit(b[57]);
    return STAR_02 + 5;
}

/* Between plus and minus stands the comma. */
static size_t written_03(const uint8_t *b, int64_t *row)
{
    int64_t *v = row + AMP_VALUES, tenths = three(b + 39) * 10 + digit(b[43]);

    if (!all_set(fits(block_at(b), &sentence_03, 0) & fits(block_at(b + 16), &sentence_03, 16)
                 & fits(block_at(b + 32), &sentence_03, 32)
                 & fits(block_at(b + 33), &sentence_03, 33))
        || b[38] == ',' || !good_sums(b, STAR_03))
        return 0;
    lay_head(row, 3);
    v[AMP_03_V5] = three(b + 7);
    v[AMP_03_V12] = three(b + 11);
    v[AMP_03_V24] = three(b + 15);
    v[AMP_03_M12] = three(b + 19);
    v[AMP_03_V40] = three(b + 23);
    v[AMP_03_ACLINE] = four(b + 27);
    v[AMP_03_MBSTATUS] = three(b + 32);
    v[AMP_03_MBTAP] = digit(b[36]);
    v[AMP_03_TEMP] = b[38] == '-' ? -tenths : tenths;
    return STAR_03 + 5;
}

static void lay_05(const uint8_t *b, int64_t *v)
{
    size_t i;

    for (i = 0; i < 4; i++) {
        v[2 * i] = hex(b + 7 + 3 * i) >> 4;
        v[2 * i + 1] = hex(b + 7 + 3 * i) & 15;
    }
    v[AMP_05_WTIME] = hex(b + 19);
    v[AMP_05_TCMD] = hex(b + 22);
    v[AMP_05_LCMD] = hex(b + 25);
}

/* No byte of a good 05 is between the digits and the letters. */
static size_t written_05(const uint8_t *b, int64_t *row)
{
    block first = block_at(b), second = block_at(b + 16);

    if (!all_set(fits(first, &sentence_05, 0) & fits(second, &sentence_05, 16)
                 & (block)(first - ':' > '@' - ':') & (block)(second - ':' > '@' - ':'))
        || !good_sums(b, STAR_05))
        return 0;
    lay_head(row, 5);
    lay_05(b, row + AMP_VALUES);
    return STAR_05 + 5;
}

size_t read_written(const uint8_t *b, size_t left, int64_t *row)
{
    if (left < SHORTEST_WRITTEN || b[4] != '0')
        return 0;
    if (b[5] == '2')
        return left >= STAR_02 + 5 && b[STAR_02] == '*' ? written_02(b, row) : 0;
    if (b[5] == '3')
        return left >= STAR_03 + 5 && b[STAR_03] == '*' ? written_03(b, row) : 0;
    return b[5] == '5' && b[STAR_05] == '*' ? written_05(b, row) : 0;
}

/* ---- Any sentence ------------------------------------------------------- */

static inline int is_digit(uint8_t b)
{
    return (unsigned)b - '0' < 10;
}

/* Reads many decimal fields, each behind its comma, and gives the place behind
 * the last; a null pointer if one breaks its rule.  None of these field walks
 * needs the payload's length: the star behind it fits no field. */
static const uint8_t *past_decimals(const uint8_t *f, const struct decimal *field,
                                    size_t many, int64_t *v)
{
    for (; many > 0; many--, field++) {
        const uint8_t *first = f + 1;
        unsigned value = 0;

        if (*f++ != ',')
            return NULL;
        while (is_digit(*f) && (size_t)(f - first) < field->width)
            value = value * 10 + (*f++ - '0');
        if (f == first || value < field->least || value > field->most)
            return NULL;
        *v++ = value;
    }
    return f;
}

/* Whether f is a comma, a temperature, and the end of the payload. */
static int last_temperature(const uint8_t *f, int64_t *v)
{
    const uint8_t *first;
    int64_t tenths = 0;
    int below = f[1] == '-';

    if (f[0] != ',' || (f[1] != '+' && f[1] != '-'))
        return 0;
    f += 2;
    for (first = f; is_digit(*f) && f - first < 3; f++)
        tenths = tenths * 10 + digit(*f);
    if (f == first || f[0] != '.' || !is_digit(f[1]) || f[2] != '*')
        return 0;
    tenths = tenths * 10 + digit(f[1]);
    *v = below ? -tenths : tenths;
    return 1;
}

/* Lays the values of a sentence 02 or 03 of any widths at v, a room apart, for
 * they may turn out to break a rule; gives how many, or 0. */
static size_t loose_values(const uint8_t *b, int64_t *v)
{
    const uint8_t *f = b + 6;

    if (b[5] == '2') {
        f = past_decimals(f, fields_02, AMP_02_VALUES, v);
        return f != NULL && *f == '*' ? AMP_02_VALUES : 0;
    }
    f = past_decimals(f, fields_03, AMP_03_TEMP, v);
    return f != NULL && last_temperature(f, v + AMP_03_TEMP) ? AMP_03_VALUES : 0;
}

/* A sentence 05 has but one width, so one that is good is read as written. */
int read_sentence(const uint8_t *b, size_t star, int64_t *row)
{
    int64_t apart[AMP_02_VALUES];
    size_t many = 0;

    if (read_written(b, star + 5, row))
        return 1;
    if (star < 6 || b[1] != 'A' || b[2] != 'P' || b[3] != 'A' || !is_digit(b[4])
        || !is_digit(b[5]) || (b[6] != ',' && b[6] != '*'))
        return 0;
    if (star < BLOCK ? !good_short_sums(b, star) : !good_sums(b, star))
        return 0;
    if (b[4] == '0' && (b[5] == '2' || b[5] == '3' || b[5] == '5')) {
        many = b[5] == '5' ? 0 : loose_values(b, apart);
        if (many == 0)
            return 0;
        memcpy(row + AMP_VALUES, apart, many * sizeof *row);
    }
    lay_head(row, two(b + 4));
    return 1;
}
