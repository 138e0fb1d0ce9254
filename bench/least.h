/* A call on a stream that does next to nothing: what no reader that is called as amp_feed is, and answers by a
 * row, can go below. */
#ifndef LEAST_H
#define LEAST_H

#include "amp.h"

/* Takes all that is offered without a look at it but for its first byte, which it notes in the reader, and lays the row
 * of "more wanted". The arguments are those of amp_feed; the row has room. */
uint32_t least_feed(amp_reader *reader, const uint8_t *offered, size_t offered_len,
                    int64_t *row, size_t row_len);

#endif
