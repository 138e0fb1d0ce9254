/* A stream reader in plain C, made to be fast: what the proved one is held
 * against.  The functions do what c/amp.h says of amp_fresh, amp_feed and
 * amp_close, on the same reader and with the same rows and refusals. */
#ifndef PLAIN_STREAM_H
#define PLAIN_STREAM_H

#include "amp.h"

uint32_t plain_fresh(amp_reader *reader, uint32_t family);
uint32_t plain_feed(amp_reader *reader, const uint8_t *offered, size_t offered_len,
                    int64_t *row, size_t row_len);
uint32_t plain_close(amp_reader *reader);

#endif
