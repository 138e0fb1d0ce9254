/* Reading whole packets into rows, for the plain stream reader.
 *
 * The few rules of a report that no range can tell are looked at behind the
 * ranges.  Values are laid only once a frame is known to be good: a row of
 * another answer has to be as it was behind its head. */
#include "amp.h"
#include "plain_fields.h"
#include "plain_places.h"

/* ---- Layouts ------------------------------------------------------------ */

/* The data.  What is behind it has no ranges. */
#define REPORT(AT, id1, id2, bank, banks, antenna, last) \
    C_(AT) IS(AT, id1) IS(AT, id2) IS(AT, 'K') C_(AT) UPPER_CASE(AT) \
    C_(AT) UPPER_CASE(AT) C_(AT) AT(bank, banks) C_(AT) AT('1', '2') \
    C_(AT) AT('0', '1') N_(AT) C_(AT) AT('0', antenna) LOWER_CASE(AT) \
    C_(AT) AT('0', antenna) IS(AT, 'r') C_(AT) UPPER_CASE(AT) \
    F4(AT) C_(AT) N2(AT) P_(AT) N2(AT) C_(AT) N2(AT) P_(AT) N2(AT) \
    C_(AT) N2(AT) P_(AT) N_(AT) C_(AT) N2(AT) P_(AT) N_(AT) F3(AT) \
    C_(AT) AT('0', last) AT('0', last) AT('0', last) \
    C_(AT) AT('0', last) AT('0', last) AT('0', last) \
    C_(AT) UPPER_CASE(AT) C_(AT) UPPER_CASE(AT) C_(AT)
#define REPORT_20K(AT) REPORT(AT, '2', '0', 'x', 'x', '6', '9')
/* The 1.3K-FA has a bank, fewer antennas, and two temperatures that are 0. */
#define REPORT_13K(AT) REPORT(AT, '1', '3', 'A', 'B', '4', '0')

static const struct ranges reports[2] = {RANGES(REPORT_13K), RANGES(REPORT_20K)};

/* ---- Reports ------------------------------------------------------------ */

#define LETTER(c) (UINT32_C(1) << ((c) - 'A'))
enum {
    STATES = LETTER('S') | LETTER('O'),
    DIRECTIONS = LETTER('R') | LETTER('T'),
    LEVELS = LETTER('L') | LETTER('M') | LETTER('H'),
    WARNINGS = LETTER('M') | LETTER('A') | LETTER('S') | LETTER('B') | LETTER('P')
             | LETTER('O') | LETTER('Y') | LETTER('W') | LETTER('K') | LETTER('R')
             | LETTER('T') | LETTER('C') | LETTER('N'),
    ALARMS = LETTER('S') | LETTER('A') | LETTER('D') | LETTER('H') | LETTER('C')
           | LETTER('N'),
    TUNERS = LETTER('T') | LETTER('B') | LETTER('A')      /* in lower case */
};

/* Places in the data. */
enum {
    STATE = 5, DIRECTION = 7, BANK = 9, INPUT = 11, BAND = 13, TRANSMIT = 16,
    TUNER = 17, RECEIVE = 19, LEVEL = 22, WATTS = 24, SWR_ATU = 29, SWR_ANT = 35,
    VOLTS = 41, AMPERES = 46, UPPER = 51, LOWER = 55, COMBINER = 59,
    WARNING = 63, ALARM = 65, SUM = 67
};

/* A space may stand for a digit in the first places of a number.  There the
 * mask has the bit that makes a space a nought. */
#define S_ 0x10
static const uint8_t spaces[LONGEST_LAYOUT] = {
    [WATTS] = S_, [WATTS + 1] = S_, [WATTS + 2] = S_, [SWR_ATU] = S_,
    [SWR_ANT] = S_, [VOLTS] = S_, [AMPERES] = S_, [UPPER] = S_, [UPPER + 1] = S_,
    [LOWER] = S_, [LOWER + 1] = S_, [COMBINER] = S_, [COMBINER + 1] = S_
};

static inline block data_fits(block v, const struct ranges *r, size_t i)
{
    return fits(v ^ ((block)(v == ' ') & block_at(spaces + i)), r, i);
}

/* Whether each byte is in its range and the sum is right.  The data ends in a
 * comma, the alarm and a comma, which the four blocks that are summed leave;
 * the block that settles those reaches back over bytes that were looked at. */
static inline int fits_and_sums(const uint8_t *d)
{
    const struct ranges *r = &reports[d[1] == '2'];
    block a = block_at(d), b = block_at(d + 16), c = block_at(d + 32), e = block_at(d + 48);
    block fit = data_fits(a, r, 0) & data_fits(b, r, 16) & data_fits(c, r, 32)
              & data_fits(e, r, 48) & data_fits(block_at(d + 51), r, 51);
    unsigned sum = sum_of_pairs(EVENS((pairs)a) + ODDS((pairs)a) + EVENS((pairs)b) + ODDS((pairs)b)
                                + EVENS((pairs)c) + ODDS((pairs)c) + EVENS((pairs)e)
                                + ODDS((pairs)e));

    sum += ',' + d[ALARM] + ',';
    return all_set(fit) && (d[SUM] | (unsigned)d[SUM + 1] << 8) == sum;
}

/* What is left once every byte is in its range: the letters, the band's top,
 * and that no space stands behind a digit.  A digit has bit 4 set and a space
 * has not, so a place with the bit before a place without it is the fault; the
 * last place of each number is a digit already, for its mask has no bit. */
static inline int joins(const uint8_t *d)
{
    unsigned top = '1' - (d[1] == '2');
    unsigned fault = (d[WATTS] & ~d[WATTS + 1]) | (d[WATTS + 1] & ~d[WATTS + 2])
                   | (d[UPPER] & ~d[UPPER + 1]) | (d[LOWER] & ~d[LOWER + 1])
                   | (d[COMBINER] & ~d[COMBINER + 1]);
    uint32_t letters = STATES >> (d[STATE] - 'A') & DIRECTIONS >> (d[DIRECTION] - 'A')
                     & LEVELS >> (d[LEVEL] - 'A') & WARNINGS >> (d[WARNING] - 'A')
                     & ALARMS >> (d[ALARM] - 'A') & TUNERS >> (d[TUNER] - 'a');

    return ((fault & 0x10) == 0) & letters & ((d[BAND] == '0') | (d[BAND + 1] <= top));
}

static void lay_report(const uint8_t *d, int64_t comma, int64_t *v)
{
    v[AMP_STATUS_ID] = 13 + (d[1] == '2') * 7;
    v[AMP_STATUS_STATE] = d[STATE];
    v[AMP_STATUS_DIRECTION] = d[DIRECTION];
    v[AMP_STATUS_BANK] = d[BANK];
    v[AMP_STATUS_INPUT] = digit(d[INPUT]);
    v[AMP_STATUS_BAND] = two(d + BAND);
    v[AMP_STATUS_TRANSMIT] = digit(d[TRANSMIT]);
    v[AMP_STATUS_TUNER] = d[TUNER];
    v[AMP_STATUS_RECEIVE] = digit(d[RECEIVE]);
    v[AMP_STATUS_LEVEL] = d[LEVEL];
    v[AMP_STATUS_WATTS] = four(d + WATTS);
    v[AMP_STATUS_SWR_ATU] = two(d + SWR_ATU) * 100 + two(d + SWR_ATU + 3);
    v[AMP_STATUS_SWR_ANT] = two(d + SWR_ANT) * 100 + two(d + SWR_ANT + 3);
    v[AMP_STATUS_VOLTS] = two(d + VOLTS) * 10 + digit(d[VOLTS + 3]);
    v[AMP_STATUS_AMPERES] = two(d + AMPERES) * 10 + digit(d[AMPERES + 3]);
    v[AMP_STATUS_UPPER] = three(d + UPPER);
    v[AMP_STATUS_LOWER] = three(d + LOWER);
    v[AMP_STATUS_COMBINER] = three(d + COMBINER);
    v[AMP_STATUS_WARNING] = d[WARNING];
    v[AMP_STATUS_ALARM] = d[ALARM];
    v[AMP_STATUS_COMMA] = comma;
}

/* The first comma and the line end are looked at before the rest: they turn
 * away nearly all that only looks like a report, most of it by a byte of the
 * line end that is 0A or 0D in either form. */
int read_report(const uint8_t *b, int64_t *row)
{
    const uint8_t *d = b + 4;
    int64_t comma = d[SUM + 2] == ',';
    const uint8_t *end = d + SUM + 2 + comma;

    if (d[0] != ',' || d[SUM + 3] > 0x0D)
        return 0;
    if (end[0] != 0x0D || end[1] != 0x0A || !fits_and_sums(d) || !joins(d))
        return 0;
    row[AMP_KIND] = AMP_STATUS;
    row[AMP_CODE] = 0;
    lay_report(d, comma, row + AMP_VALUES);
    return 1;
}
