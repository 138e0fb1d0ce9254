/* Makes good frames by chance; made.c says in which mix. */
#ifndef MADE_H
#define MADE_H

#include <stddef.h>
#include <stdint.h>

/* One more than the longest good frame: a hostile piece may be a sentence that
 * is a byte too long. */
#define LONGEST_PIECE 135u

/* A frame being put together. */
struct frame {
    unsigned char bytes[LONGEST_PIECE];
    size_t length;
};

/* The twenty command codes. */
extern const unsigned char codes[20];

/* A number below limit, by chance. */
unsigned below(uint64_t *state, unsigned limit);
/* One byte more. */
void put(struct frame *f, unsigned byte);
void put_text(struct frame *f, const char *text);
void put_digits(struct frame *f, uint64_t *state, unsigned many);
void marks_and_count(struct frame *f, unsigned mark, unsigned count);
void put_sums(struct frame *f);
void sentence(struct frame *f, uint64_t *state);
/* A response of family 4 that has something behind its letters; loose: these in
 * either case. */
void response(struct frame *f, uint64_t *state, int loose);
/* A good frame of the family. */
void good_frame(struct frame *f, unsigned family, uint64_t *state);

#endif
