/* Makes captures for trying out and timing a lister: the same numbers always
 * give the same bytes. */
#ifndef CAPTURES_H
#define CAPTURES_H

#include <stddef.h>
#include <stdint.h>

#define KINDS 4u
enum { CLEAN, CLICKS, HOSTILE, CUT };

/* Fills s with a capture of n bytes.  family is 1 (SPE to host), 2 (Alpha
 * 9500), 3 (host to SPE) or 4 (KPA1500); kind is one of the four above.  The
 * end of the buffer may cut the last frame off. */
void make_capture(unsigned family, unsigned kind, uint64_t seed,
                  unsigned char *s, size_t n);

/* The name of a kind, for a heading. */
const char *kind_name(unsigned kind);

#endif
