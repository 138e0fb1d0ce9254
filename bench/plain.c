/* The lister in plain C, made to be fast: it walks a capture once and notes
 * where each good frame starts.
 *
 * The walk is the same in all families.  At a place where a good frame starts
 * the start is noted and the walk goes on just behind that frame; anywhere
 * else it steps one byte on.  A frame that the end of the capture cuts off is
 * no frame.  What makes it fast is that most steps can be taken several at
 * once, because the bytes already seen rule the starts between them out.  Each
 * place that does so says why.  The walk of family 4 is in plain_messages.c. */
#include "plain.h"
#include "plain_messages.h"
#include "plain_sets.h"
#include "plain_tables.h"

#define LONGEST_CAPTURE 65536u
#define SHORTEST_PACKET 6u            /* acknowledgement or command */
#define REPORT_LENGTH 75u             /* one more with the comma */
#define REPORT_DATA 67u
#define BEHIND_SUM 73u                /* where a report may have a comma */
#define SHORTEST_SENTENCE 11u         /* $, APAnn, *, four digits */
#define LONGEST_PAYLOAD 128u
#define MOST_FRAMES (LONGEST_CAPTURE / SHORTEST_MESSAGE)

/* ---- SPE packets -------------------------------------------------------- */

#define LAYOUT(id1, id2, bank, antenna, pad, last) { \
    C_, NEEDS(id1), NEEDS(id2), NEEDS(LETTER_K), \
    C_, NEEDS(OPERATE), C_, NEEDS(TRANSMIT), C_, NEEDS(bank), \
    C_, NEEDS(ONE_TWO), C_, NEEDS(TO_1), N_, \
    C_, NEEDS(antenna), NEEDS(TUNER), \
    C_, NEEDS(antenna), NEEDS(LETTER_R), C_, NEEDS(LEVEL), \
    C_, S_, S_, S_, N_, C_, S_, N_, P_, N_, N_, C_, S_, N_, P_, N_, N_, \
    C_, S_, N_, P_, N_, C_, S_, N_, P_, N_, C_, S_, S_, N_, \
    C_, NEEDS(pad), NEEDS(pad), NEEDS(last), \
    C_, NEEDS(pad), NEEDS(pad), NEEDS(last), \
    C_, NEEDS(WARNING), C_, NEEDS(ALARM), C_ }

static const uint32_t layout_20k[REPORT_DATA] =
    LAYOUT(IS_2, IS_0, LETTER_X, TO_6, PAD_DIGIT, DIGIT);
/* The 1.3K-FA has a bank, fewer antennas, and two temperatures that are 0. */
static const uint32_t layout_13k[REPORT_DATA] =
    LAYOUT(IS_1, IS_3, BANK, TO_4, PAD_ZERO, IS_0);

/* Places in the data that the layouts alone don't settle. */
enum { BAND = 13, WATTS = 24, UPPER = 51, LOWER = 55, COMBINER = 59 };

/* What is left once every byte is in its set: the band's top, and that no
 * space stands behind a digit.  A digit has bit 4 set and a space has not, so
 * a place with the bit before a place without it is the fault; the last place
 * of each field is a digit already. */
static int report_joins(const unsigned char *data)
{
    unsigned top = data[1] == '2' ? '0' : '1';
    unsigned fault = (data[WATTS] & ~data[WATTS + 1])
                   | (data[WATTS + 1] & ~data[WATTS + 2])
                   | (data[UPPER] & ~data[UPPER + 1])
                   | (data[LOWER] & ~data[LOWER + 1])
                   | (data[COMBINER] & ~data[COMBINER + 1]);
    return (fault & 0x10) == 0
        && (data[BAND] == '0' || data[BAND + 1] <= top);
}

/* Whether the data of a report and the two check bytes behind it are good, the
 * first comma being seen already.  That leaves 66 bytes of data, taken in
 * pairs to halve the cost of the loop itself. */
static int good_data(const unsigned char *data)
{
    const uint32_t *layout = data[1] == '2' ? layout_20k : layout_13k;
    uint32_t fits = ALL_SETS;
    unsigned sum = ',';
    size_t i;

    for (i = 1; i < REPORT_DATA; i += 2) {
        fits &= sets_of[data[i]] | layout[i];
        sum += data[i];
        fits &= sets_of[data[i + 1]] | layout[i + 1];
        sum += data[i + 1];
    }
    return fits == ALL_SETS && data[67] == (sum & 0xFF)
        && data[68] == sum >> 8 && report_joins(data);
}

/* The length of the good report whose marks and count stand at s, with left
 * bytes from there on; 0 if it is not good.  The byte behind the check bytes
 * alone tells which form it has.  The first comma and the line end are looked
 * at before the rest: they turn away nearly all that only looks like a report,
 * most of it by a byte of the line end that is 0A or 0D in either form. */
static size_t report_length(const unsigned char *s, size_t left)
{
    size_t length;

    if (left < REPORT_LENGTH || s[4] != ',' || s[BEHIND_SUM + 1] > 0x0D)
        return 0;
    length = REPORT_LENGTH + (s[BEHIND_SUM] == ',');
    if (left < length || s[length - 2] != 0x0D || s[length - 1] != 0x0A)
        return 0;
    return good_data(s + 4) ? length : 0;
}

/* The first place from p on with three marks and then some other byte, or n
 * when none leaves room for a packet.  No count is a mark, so of a longer run
 * only the last three can start a packet.  The byte behind the marks is looked
 * at first: unless it is a mark itself, four starts are settled at once. */
static size_t past_marks(const unsigned char *s, size_t p, size_t n,
                         unsigned mark)
{
    while (n - p >= SHORTEST_PACKET) {
        if (s[p + 3] == mark)
            p += 1;
        else if (s[p + 2] == mark && s[p + 1] == mark && s[p] == mark)
            return p;
        else
            p += 4;
    }
    return n;
}

/* The walk of family 3.  Where marks are followed by no good packet the byte
 * behind them is no mark, so the next start is at best behind that byte.
 * Gives the number of frames, or room + 1 if there are more than room. */
static size_t list_commands(const unsigned char *s, size_t n,
                            uint32_t *starts, size_t room)
{
    size_t found = 0, p = 0;

    while ((p = past_marks(s, p, n, 0x55)) < n) {
        if (s[p + 3] != 1 || s[p + 4] != s[p + 5] || !code_uses[s[p + 4]]) {
            p += 4;
            continue;
        }
        if (found == room)
            return room + 1;
        starts[found++] = (uint32_t)p;
        p += SHORTEST_PACKET;
    }
    return found;
}

/* The length of the good family 1 packet whose three marks stand at s, with
 * left bytes (at least six) from there on; 0 if it is not good. */
static size_t packet_length(const unsigned char *s, size_t left)
{
    if (s[3] == 0x43)
        return report_length(s, left);
    if (s[3] == 1 && s[4] == s[5] && (code_uses[s[4]] & ACKNOWLEDGED))
        return SHORTEST_PACKET;
    return 0;
}

/* The walk of family 1; steps and answer as for family 3. */
static size_t list_packets(const unsigned char *s, size_t n,
                           uint32_t *starts, size_t room)
{
    size_t found = 0, p = 0, length;

    while ((p = past_marks(s, p, n, 0xAA)) < n) {
        length = packet_length(s + p, n - p);
        if (length == 0) {
            p += 4;
            continue;
        }
        if (found == room)
            return room + 1;
        starts[found++] = (uint32_t)p;
        p += length;
    }
    return found;
}

/* ---- Alpha sentences ---------------------------------------------------- */

/* 1 for each byte that a payload may hold. */
#define NONE_OF_16 0, 0, 0, 0, 0, 0, 0, 0, 0, 0, 0, 0, 0, 0, 0, 0
#define ALL_OF_16 1, 1, 1, 1, 1, 1, 1, 1, 1, 1, 1, 1, 1, 1, 1, 1
static const unsigned char in_payload[256] = {
    NONE_OF_16, NONE_OF_16,
    1, 1, 1, 1, 0, 1, 1, 1, 1, 1, 0, 1, 1, 1, 1, 1,       /* no $, no * */
    ALL_OF_16, ALL_OF_16, ALL_OF_16, ALL_OF_16,
    1, 1, 1, 1, 1, 1, 1, 1, 1, 1, 1, 1, 1, 1, 1, 0        /* no 7F */
};

static const char hex_digits[] = "0123456789ABCDEF";

/* The layouts of 02, 03 and 05 with all fields at full width, from the two
 * digits of the number on, and where their * stands. */
static const uint32_t layout_02[] = {
    N_, N_, C_, N_, N_, N_, N_, N_, C_, N_, N_, N_, C_, N_, N_, N_, N_,
    C_, N_, N_, N_, N_, C_, N_, N_, N_, N_, C_, N_, N_, N_,
    C_, NEEDS(TO_2), N_, N_, C_, N_, N_, N_, C_, NEEDS(FROM_1), C_, N_,
    C_, N_, N_, C_, NEEDS(TO_1), C_, N_, N_, N_, N_, N_
};
static const uint32_t layout_03[] = {
    N_, N_, C_, N_, N_, N_, C_, N_, N_, N_, C_, N_, N_, N_, C_, N_, N_, N_,
    C_, N_, N_, N_, C_, N_, N_, N_, N_, C_, N_, N_, N_, C_, NEEDS(FROM_1_TO_5),
    C_, NEEDS(SIGN), N_, N_, N_, P_, N_
};
static const uint32_t layout_05[] = {
    N_, N_, C_, H_, H_, C_, H_, H_, C_, H_, H_, C_, H_, H_, C_, H_, H_,
    C_, H_, H_, C_, H_, H_
};
#define WRITTEN(layout) {4 + sizeof layout / sizeof *layout, layout}
static const struct {
    size_t star;
    const uint32_t *layout;
} written[10] = {
    [2] = WRITTEN(layout_02), [3] = WRITTEN(layout_03), [5] = WRITTEN(layout_05)
};

/* In such a sentence 02 the grid voltage stands at a known place; its first
 * digit is at most 2 by the layout. */
#define GRID_VOLTAGE 36
static int written_grid_voltage(const unsigned char *v)
{
    return v[0] != '2' || v[1] < '5' || (v[1] == '5' && v[2] <= '5');
}

static int is_digit(unsigned char b)
{
    return (unsigned)b - '0' < 10;
}

/* Walks over many decimal fields, each behind its comma, and gives the place
 * behind the last; a null pointer if one breaks its rule.  None of these field
 * walks needs the payload's length: the * behind it fits no field. */
static const unsigned char *past_decimals(const unsigned char *f,
                                          const struct decimal *field,
                                          size_t many)
{
    for (; many > 0; many--, field++) {
        const unsigned char *first = f + 1;
        unsigned value = 0;

        if (*f++ != ',')
            return NULL;
        while (is_digit(*f) && (size_t)(f - first) < field->width)
            value = value * 10 + (*f++ - '0');
        if (f == first || value < field->least || value > field->most)
            return NULL;
    }
    return f;
}

/* Whether f is a comma, a temperature, and the end of the payload. */
static int last_temperature(const unsigned char *f)
{
    const unsigned char *first;

    if (f[0] != ',' || (f[1] != '+' && f[1] != '-'))
        return 0;
    f += 2;
    for (first = f; is_digit(*f); f++)
        ;
    return f != first && f - first <= 3
        && f[0] == '.' && is_digit(f[1]) && f[2] == '*';
}

/* Whether f is seven times a comma and two uppercase hexadecimal digits, and
 * then the end of the payload. */
static int seven_bytes(const unsigned char *f)
{
    size_t i;

    for (i = 0; i < 7; i++, f += 3) {
        if (f[0] != ',')
            return 0;
        if (!is_digit(f[1]) && (unsigned)f[1] - 'A' >= 6)
            return 0;
        if (!is_digit(f[2]) && (unsigned)f[2] - 'A' >= 6)
            return 0;
    }
    return *f == '*';
}

/* Whether the fields of the sentence at s keep the rules of its number.  Only
 * 02, 03 and 05 have rules. */
static int good_fields(const unsigned char *s)
{
    const unsigned char *f = s + 6;

    if (s[4] != '0')
        return 1;
    if (s[5] == '2') {
        f = past_decimals(f, fields_02, sizeof fields_02 / sizeof *fields_02);
        return f != NULL && *f == '*';
    }
    if (s[5] == '3') {
        f = past_decimals(f, fields_03, sizeof fields_03 / sizeof *fields_03);
        return f != NULL && last_temperature(f);
    }
    return s[5] != '5' || seven_bytes(f);
}

/* Whether the dollar sign at s is followed by a number and what may stand
 * behind one.  Needs seven bytes. */
static int sentence_begins(const unsigned char *s)
{
    return s[1] == 'A' && s[2] == 'P' && s[3] == 'A'
        && is_digit(s[4]) && is_digit(s[5]) && (s[6] == ',' || s[6] == '*');
}

/* Whether the four digits behind the * at star are the two sums. */
static int good_sums(const unsigned char *star, unsigned sum1, unsigned sum2)
{
    return star[1] == hex_digits[sum2 >> 4 & 15]
        && star[2] == hex_digits[sum2 & 15]
        && star[3] == hex_digits[sum1 >> 4 & 15]
        && star[4] == hex_digits[sum1 & 15];
}

/* What the two sums are after "APA", from where both ways below begin. */
#define BEHIND_APA 4u
#define SUM1_OF_APA (65u + 80u + 65u)
#define SUM2_OF_APA (65u + (65u + 80u) + (65u + 80u + 65u))

/* The short way, for a sentence 02, 03 or 05 whose fields have the widths a
 * writer uses, as nearly all have: one pass over a layout both sums it and
 * settles its fields.  Gives 0 if the sentence is not of that sort; else sets
 * *good and gives how far the walk may go. */
static size_t try_written(const unsigned char *s, size_t left, int *good)
{
    size_t star = s[4] == '0' ? written[s[5] - '0'].star : 0, i;
    const uint32_t *layout;
    uint32_t fits = ALL_SETS;
    unsigned sum1 = SUM1_OF_APA, sum2 = SUM2_OF_APA;

    if (star == 0 || left < star + 5 || s[star] != '*')
        return 0;
    layout = written[s[5] - '0'].layout;
    for (i = BEHIND_APA; i < star; i++) {
        fits &= sets_of[s[i]] | *layout++;
        sum1 += s[i];
        sum2 += sum1;
    }
    if (fits != ALL_SETS)
        return 0;
    *good = good_sums(s + star, sum1, sum2)
         && (s[5] != '2' || written_grid_voltage(s + GRID_VOLTAGE));
    return *good ? star + 5 : star;
}

/* Tries the dollar sign at s, with left bytes (at least eleven) from there on.
 * Sets *good, and gives how far the walk may go: over the frame if it is good,
 * else over the bytes seen to be payload, for none of them is a dollar sign.
 * The sums may grow: 128 bytes can't carry them out of 32 bits, and only their
 * low eight bits are looked at. */
static size_t try_sentence(const unsigned char *s, size_t left, int *good)
{
    size_t stop = left - 4, i;
    unsigned sum1 = SUM1_OF_APA, sum2 = SUM2_OF_APA;

    *good = 0;
    if (!sentence_begins(s))
        return 1;
    i = try_written(s, left, good);
    if (i > 0)
        return i;
    if (stop > LONGEST_PAYLOAD + 2)
        stop = LONGEST_PAYLOAD + 2;
    for (i = BEHIND_APA; i < stop && in_payload[s[i]]; i++) {
        sum1 += s[i];
        sum2 += sum1;
    }
    if (i == stop || s[i] != '*' || !good_sums(s + i, sum1, sum2))
        return i;
    *good = good_fields(s);
    return *good ? i + 5 : i;
}

/* The walk of family 2; answer as for family 3. */
static size_t list_sentences(const unsigned char *s, size_t n,
                             uint32_t *starts, size_t room)
{
    size_t found = 0, p = 0, step;
    int good;

    while (n - p >= SHORTEST_SENTENCE) {
        if (s[p] != '$') {
            p++;
            continue;
        }
        step = try_sentence(s + p, n - p, &good);
        if (good) {
            if (found == room)
                return room + 1;
            starts[found++] = (uint32_t)p;
        }
        p += step;
    }
    return found;
}

/* ---- The entry ---------------------------------------------------------- */

static size_t shortest_frame(unsigned family)
{
    return family == 2 ? SHORTEST_SENTENCE
         : family == 4 ? SHORTEST_MESSAGE : SHORTEST_PACKET;
}

static size_t list_family(unsigned family, const unsigned char *s, size_t n,
                          uint32_t *starts, size_t room)
{
    if (family == 1)
        return list_packets(s, n, starts, room);
    if (family == 2)
        return list_sentences(s, n, starts, room);
    if (family == 4)
        return list_messages(s, n, starts, room);
    return list_commands(s, n, starts, room);
}

/* A refusal for want of room has to leave the places as they were.  When there
 * are places for as many frames as could fit the capture that can't happen,
 * and the walk writes straight into them; else it writes aside first. */
unsigned plain_list(unsigned family, const unsigned char *s, size_t n,
                    uint32_t *starts, size_t room, size_t *count)
{
    uint32_t aside[MOST_FRAMES];
    size_t found, i;

    if (family < 1 || family > 4)
        return REFUSED_FAMILY;
    if (n > LONGEST_CAPTURE)
        return REFUSED_LONG;
    if (room >= n / shortest_frame(family)) {
        *count = list_family(family, s, n, starts, room);
        return 0;
    }
    found = list_family(family, s, n, aside, room);
    if (found > room)
        return REFUSED_ROOM;
    for (i = 0; i < found; i++)
        starts[i] = aside[i];
    *count = found;
    return 0;
}
