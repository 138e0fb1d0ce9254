/* The codes of packets, and the decimal fields of sentences 02 and 03: for the
 * plain lister and the plain stream reader. */
#ifndef PLAIN_TABLES_H
#define PLAIN_TABLES_H

#include <stdint.h>

/* For each code: which packets may carry it. */
enum { COMMANDED = 1, ACKNOWLEDGED = 2, BOTH = COMMANDED | ACKNOWLEDGED };

static const uint8_t code_uses[256] = {
    [0x01] = BOTH, [0x02] = BOTH, [0x03] = BOTH, [0x04] = BOTH, [0x05] = BOTH,
    [0x06] = BOTH, [0x07] = BOTH, [0x08] = BOTH, [0x09] = BOTH, [0x0A] = BOTH,
    [0x0B] = BOTH, [0x0C] = BOTH, [0x0D] = BOTH, [0x0E] = BOTH, [0x0F] = BOTH,
    [0x10] = BOTH, [0x11] = BOTH, [0x82] = BOTH, [0x83] = BOTH,
    [0x90] = COMMANDED                /* answered by a report, never echoed */
};

/* A decimal field: how many digits at most, and the values it may have. */
struct decimal {
    unsigned width, least, most;
};

static const struct decimal fields_02[] = {
    {5, 0, 99999}, {3, 0, 999}, {4, 0, 9999}, {4, 0, 9999}, {4, 0, 9999},
    {3, 0, 999}, {3, 0, 255}, {3, 0, 999}, {1, 1, 9}, {1, 0, 9},
    {2, 0, 99}, {1, 0, 1}, {5, 0, 99999}
};

static const struct decimal fields_03[] = {
    {3, 0, 999}, {3, 0, 999}, {3, 0, 999}, {3, 0, 999}, {3, 0, 999},
    {4, 0, 9999}, {3, 0, 999}, {1, 1, 5}
};

#endif
