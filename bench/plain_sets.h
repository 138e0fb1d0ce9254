/* The sets of bytes of the plain lister: which each byte belongs to, and what
 * a layout says of a place. */
#ifndef PLAIN_SETS_H
#define PLAIN_SETS_H

#include <stdint.h>

/* The sets of bytes that a place in a report's data or in a sentence may be
 * drawn from, one bit each.  Every place needs exactly one of these sets. */
enum {
    COMMA = 1 << 0, POINT = 1 << 1, LETTER_K = 1 << 2, LETTER_X = 1 << 3,
    LETTER_R = 1 << 4, IS_0 = 1 << 5, IS_1 = 1 << 6, IS_2 = 1 << 7,
    IS_3 = 1 << 8, TO_1 = 1 << 9, ONE_TWO = 1 << 10, TO_4 = 1 << 11,
    TO_6 = 1 << 12, DIGIT = 1 << 13, PAD_DIGIT = 1 << 14, PAD_ZERO = 1 << 15,
    OPERATE = 1 << 16, TRANSMIT = 1 << 17, BANK = 1 << 18, TUNER = 1 << 19,
    LEVEL = 1 << 20, WARNING = 1 << 21, ALARM = 1 << 22,
    TO_2 = 1 << 23, FROM_1 = 1 << 24, FROM_1_TO_5 = 1 << 25, HEX = 1 << 26,
    SIGN = 1 << 27
};

#define ANY_DIGIT (DIGIT | PAD_DIGIT | HEX)
#define ANY_BUT_0 (ANY_DIGIT | FROM_1)
static const uint32_t sets_of[256] = {
    [' '] = PAD_DIGIT | PAD_ZERO, [','] = COMMA, ['.'] = POINT,
    ['+'] = SIGN, ['-'] = SIGN,
    ['0'] = ANY_DIGIT | PAD_ZERO | IS_0 | TO_1 | TO_2 | TO_4 | TO_6,
    ['1'] = ANY_BUT_0 | IS_1 | TO_1 | TO_2 | ONE_TWO | TO_4 | TO_6
          | FROM_1_TO_5,
    ['2'] = ANY_BUT_0 | IS_2 | TO_2 | ONE_TWO | TO_4 | TO_6 | FROM_1_TO_5,
    ['3'] = ANY_BUT_0 | IS_3 | TO_4 | TO_6 | FROM_1_TO_5,
    ['4'] = ANY_BUT_0 | TO_4 | TO_6 | FROM_1_TO_5,
    ['5'] = ANY_BUT_0 | TO_6 | FROM_1_TO_5, ['6'] = ANY_BUT_0 | TO_6,
    ['7'] = ANY_BUT_0, ['8'] = ANY_BUT_0, ['9'] = ANY_BUT_0,
    ['A'] = HEX | BANK | WARNING | ALARM, ['B'] = HEX | BANK | WARNING,
    ['C'] = HEX | WARNING | ALARM, ['D'] = HEX | ALARM,
    ['E'] = HEX, ['F'] = HEX, ['H'] = LEVEL | ALARM,
    ['K'] = LETTER_K | WARNING, ['L'] = LEVEL, ['M'] = LEVEL | WARNING,
    ['N'] = WARNING | ALARM, ['O'] = OPERATE | WARNING, ['P'] = WARNING,
    ['R'] = TRANSMIT | WARNING, ['S'] = OPERATE | WARNING | ALARM,
    ['T'] = TRANSMIT | WARNING, ['W'] = WARNING, ['Y'] = WARNING,
    ['a'] = TUNER, ['b'] = TUNER, ['r'] = LETTER_R, ['t'] = TUNER,
    ['x'] = LETTER_X
};

/* A layout has one entry for each place: all sets but the one it needs.  Then
 * "sets_of[byte] | entry" is all ones exactly when the byte is allowed there,
 * and a whole frame comes down to ands, with no branch for each byte. */
#define ALL_SETS (~(uint32_t)0)
#define NEEDS(set) (ALL_SETS ^ (uint32_t)(set))
#define C_ NEEDS(COMMA)
#define N_ NEEDS(DIGIT)
#define S_ NEEDS(PAD_DIGIT)
#define P_ NEEDS(POINT)
#define H_ NEEDS(HEX)

#endif
