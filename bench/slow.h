/* A lister that is slow on purpose; slow.c says how. */
#ifndef SLOW_H
#define SLOW_H

#include <stddef.h>
#include <stdint.h>

/* Whether the bytes are, as a whole, one good frame of the family. */
int slow_frame(unsigned family, const unsigned char *b, size_t n);

/* Lists into starts, which has to be large enough; adds up the bytes of the
 * frames in *framed. */
size_t slow_list(unsigned family, const unsigned char *s, size_t n,
                 uint32_t *starts, size_t *framed);

#endif
