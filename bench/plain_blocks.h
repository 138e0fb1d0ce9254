/* Sixteen bytes at a time, for the plain stream reader and for messages in the
 * plain lister: what is looked at, moved or cleared byte by byte would cost more
 * than all the rest of a short call.
 * The vector types are those that gcc and clang both have; a compiler makes of
 * them what its machine offers. */
#ifndef PLAIN_BLOCKS_H
#define PLAIN_BLOCKS_H

#include <stddef.h>
#include <stdint.h>
#include "sys.h"

#define BLOCK 16u

/* What has to be laid out in its caller, for it is there that it is short. */
#define WITHIN static inline __attribute__((always_inline))
/* And what must not be. */
#define APART static __attribute__((noinline))

typedef uint8_t block __attribute__((vector_size(16)));
typedef uint16_t pairs __attribute__((vector_size(16)));
typedef uint64_t halves __attribute__((vector_size(16)));

/* A number whose lowest byte is the first in memory, from one in the machine's
 * own order, or the other way round. */
#if __BYTE_ORDER__ == __ORDER_BIG_ENDIAN__
#define IN_ORDER(word) __builtin_bswap64(word)
#else
#define IN_ORDER(word) (word)
#endif

WITHIN block block_at(const uint8_t *b)
{
    block v;

    memcpy(&v, b, sizeof v);
    return v;
}

WITHIN void put_block(uint8_t *to, block v)
{
    memcpy(to, &v, sizeof v);
}

/* Whether every bit is set, as a comparison sets them where it holds. */
WITHIN int all_set(block v)
{
    halves h = (halves)v;

    return (h[0] & h[1]) == ~(uint64_t)0;
}

WITHIN int any_set(block v)
{
    halves h = (halves)v;

    return (h[0] | h[1]) != 0;
}

/* The first byte that is set, of a comparison's: there is one. */
WITHIN size_t first_set(block v)
{
    halves h = (halves)v;

    return h[0] != 0 ? (size_t)__builtin_ctzll(IN_ORDER(h[0])) / 8
                     : 8 + (size_t)__builtin_ctzll(IN_ORDER(h[1])) / 8;
}

/* Which bytes are from low to low + span. */
WITHIN block within(block v, block low, block span)
{
    return (block)(v - low <= span);
}

/* What a sentence or a message begins with, and what its text ends with: the
 * text holds bytes that print, and neither of these. */
struct ends {
    uint8_t first, last;
};
static const struct ends of_sentence = {'$', '*'}, of_message = {'^', ';'};

/* Which bytes a text may hold. */
WITHIN block text_of(block v, struct ends ends)
{
    return (block)(v - 0x20 <= 0x5E) & (block)(v != ends.first) & (block)(v != ends.last);
}

/* The first place from i on, before n, whose byte no text may hold; or n.  The
 * last block reaches back over bytes that were looked at. */
WITHIN size_t text_end(const uint8_t *s, size_t i, size_t n, struct ends ends)
{
    block fit;

    if (n - i < BLOCK) {
        while (i < n && s[i] - 0x20u <= 0x5E && s[i] != ends.first && s[i] != ends.last)
            i++;
        return i;
    }
    for (; i < n - BLOCK; i += BLOCK) {
        fit = text_of(block_at(s + i), ends);
        if (!all_set(fit))
            return i + first_set(~fit);
    }
    fit = text_of(block_at(s + n - BLOCK), ends);
    return all_set(fit) ? n : n - BLOCK + first_set(~fit);
}

/* Masks of sixteen bytes: where they begin in this row tells how many of the
 * first or of the last are set. */
static const uint8_t edges[48] = {
    0, 0, 0, 0, 0, 0, 0, 0, 0, 0, 0, 0, 0, 0, 0, 0,
    255, 255, 255, 255, 255, 255, 255, 255, 255, 255, 255, 255, 255, 255, 255, 255
};

WITHIN block last_of_block(size_t many)
{
    return block_at(edges + many);
}

WITHIN block first_of_block(size_t many)
{
    return block_at(edges + 2 * BLOCK - many);
}

/* A loop over blocks that are only moved or cleared is what a compiler knows as
 * memcpy or memset, and calls; here that would cost more than the blocks do.
 * So there are no such loops. */

WITHIN void move_block(uint8_t *restrict to, const uint8_t *restrict from)
{
    memcpy(to, from, BLOCK);
}

/* Moves many bytes, fewer than sixteen. */
WITHIN void move_few(uint8_t *restrict to, const uint8_t *restrict from, size_t many)
{
    if (many == 1) {
        *to = *from;
    } else if (many >= 8) {
        memcpy(to, from, 8);
        memcpy(to + many - 8, from + many - 8, 8);
    } else if (many >= 4) {
        memcpy(to, from, 4);
        memcpy(to + many - 4, from + many - 4, 4);
    } else if (many > 0) {
        to[0] = from[0];
        to[many / 2] = from[many / 2];
        to[many - 1] = from[many - 1];
    }
}

/* Moves many bytes, at most 144: from both ends towards the middle, where the
 * blocks overlap. */
WITHIN void move_bytes(uint8_t *restrict to, const uint8_t *restrict from, size_t many)
{
    if (many < BLOCK) {
        move_few(to, from, many);
        return;
    }
    if (many > 2 * BLOCK) {
        if (many > 4 * BLOCK) {
            move_block(to + 32, from + 32);
            move_block(to + 48, from + 48);
            move_block(to + many - 64, from + many - 64);
            move_block(to + many - 48, from + many - 48);
            if (many > 8 * BLOCK)
                move_block(to + 64, from + 64);
        }
        move_block(to + 16, from + 16);
        move_block(to + many - 32, from + many - 32);
    }
    move_block(to, from);
    move_block(to + many - BLOCK, from + many - BLOCK);
}

/* ---- Words -------------------------------------------------------------- */

/* Eight bytes as a number, the first one lowest. */
WITHIN uint64_t word_at(const uint8_t *b)
{
    uint64_t word;

    memcpy(&word, b, sizeof word);
    return IN_ORDER(word);
}

WITHIN void put_word(uint8_t *b, uint64_t word)
{
    word = IN_ORDER(word);
    memcpy(b, &word, sizeof word);
}

WITHIN uint32_t half_at(const uint8_t *b)
{
    return b[0] | (uint32_t)b[1] << 8 | (uint32_t)b[2] << 16 | (uint32_t)b[3] << 24;
}

/* The first bytes as such a number, at most eight, of n that may be read. */
WITHIN uint64_t word_of(const uint8_t *b, size_t n)
{
    if (n >= 8)
        return word_at(b);
    if (n >= 4)
        return half_at(b) | (uint64_t)half_at(b + n - 4) << 8 * (n - 4);
    if (n == 0)
        return 0;
    return b[0] | (uint64_t)b[n / 2] << 8 * (n / 2) | (uint64_t)b[n - 1] << 8 * (n - 1);
}

#endif
