/* What a caller needs of the lister: one function that tells where the good
 * frames of a capture start. */
#ifndef PLAIN_H
#define PLAIN_H

#include <stddef.h>
#include <stdint.h>

/* The numbers for no that a lister can give. */
enum {
    REFUSED_FAMILY = 1,   /* the family is not 1 to 4 */
    REFUSED_ROOM = 4,     /* more good frames than places */
    REFUSED_LONG = 7      /* the capture is over 65,536 bytes */
};

/* Lists the good frames of the capture s of n bytes: family 1 is SPE to host,
 * 2 is Alpha 9500, 3 is host to SPE, 4 is KPA1500.  Gives 0, sets *count, and
 * fills starts[0..*count), leaving the other places as they were; or gives a
 * refusal and leaves *count and every place as they were.  The refusals are
 * looked for in the order 1, 7, 4.  The places must not overlap the capture.  s
 * may be null when n is 0, starts may be null when room is 0. */
unsigned plain_list(unsigned family, const unsigned char *s, size_t n,
                    uint32_t *starts, size_t room, size_t *count);

#endif
