/* The places of frames and their values, for the plain stream reader.
 *
 * A place of a report, or of a sentence in the widths a writer uses, is drawn
 * from a range of bytes, and two tables say from which; so sixteen places are
 * settled at once. */
#ifndef PLAIN_PLACES_H
#define PLAIN_PLACES_H

#include "plain_blocks.h"

/* Each place is told once, by its lowest byte and its highest; LOW and SPAN
 * make the two tables of it. */
#define LOW(low, high) low,
#define SPAN(low, high) (high) - (low),

#define IS(AT, byte) AT(byte, byte)
#define C_(AT) AT(',', ',')
#define P_(AT) AT('.', '.')
#define N_(AT) AT('0', '9')
#define N2(AT) N_(AT) N_(AT)
#define F3(AT) C_(AT) N2(AT) N_(AT)
#define F4(AT) C_(AT) N2(AT) N2(AT)
#define H_(AT) AT('0', 'F')           /* and no byte between digits and letters */
#define FH(AT) C_(AT) H_(AT) H_(AT)
#define UPPER_CASE(AT) AT('A', 'Z')   /* one of a set of letters */
#define LOWER_CASE(AT) AT('a', 'z')
#define ANY(AT) AT(0, 255)

#define RANGES(layout) {{layout(LOW)}, {layout(SPAN)}}
#define LONGEST_LAYOUT 67u           /* that of a report's data */
struct ranges {
    uint8_t low[LONGEST_LAYOUT], span[LONGEST_LAYOUT];
};

/* Which of the sixteen bytes v from place i on are within their ranges. */
WITHIN block fits(block v, const struct ranges *r, size_t i)
{
    return within(v, block_at(r->low + i), block_at(r->span + i));
}

/* The bytes at even and at odd places, each with room for sixteen bits. */
#if __BYTE_ORDER__ == __ORDER_BIG_ENDIAN__
#define EVENS(v) ((v) >> 8)
#define ODDS(v) ((v) & 0xFF)
#else
#define EVENS(v) ((v) & 0xFF)
#define ODDS(v) ((v) >> 8)
#endif

/* All eight added up, none of them above 8,191. */
WITHIN unsigned sum_of_pairs(pairs v)
{
    halves h = (halves)v;

    return (unsigned)((h[0] + h[1]) * UINT64_C(0x0001000100010001) >> 48);
}

/* The number of a digit, or 0 of a space. */
WITHIN int64_t digit(uint8_t b)
{
    return b & 15;
}

WITHIN int64_t two(const uint8_t *b)
{
    return digit(b[0]) * 10 + digit(b[1]);
}

WITHIN int64_t three(const uint8_t *b)
{
    return two(b) * 10 + digit(b[2]);
}

WITHIN int64_t four(const uint8_t *b)
{
    return two(b) * 100 + two(b + 2);
}

#endif
