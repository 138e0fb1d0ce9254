/* The proved functions as a processor with pointers of 32 bits has them: lengths, places and counts are numbers
 * of 64 bits there too, and so is what amp_next gives back. tools/archive gives them these names; c/narrow.c
 * makes the functions of amp.h of them. What each gives and leaves stands in amp.h. */
#ifndef WIDE_H
#define WIDE_H

#include "amp.h"

uint32_t amp_wide_fresh(amp_reader *reader, uint32_t family);
uint32_t amp_wide_feed(amp_reader *reader, const uint8_t *offered, uint64_t offered_len, int64_t *row, uint64_t row_len);
uint32_t amp_wide_close(amp_reader *reader);
uint32_t amp_wide_read(uint32_t family, const uint8_t *bytes, uint64_t bytes_len, int64_t *row, uint64_t row_len);
uint32_t amp_wide_list(uint32_t family, const uint8_t *capture, uint64_t capture_len, uint32_t *starts,
                       uint64_t starts_len, uint64_t *count);
uint64_t amp_wide_next(uint32_t family, const uint8_t *capture, uint64_t capture_len, uint64_t place, uint32_t reports,
                       uint64_t *start);
uint32_t amp_wide_write(uint32_t kind, uint32_t code, const int64_t *values, uint64_t values_len, uint8_t *out,
                        uint64_t out_len, uint64_t *length);
uint32_t amp_wide_write_enable(uint8_t *out, uint64_t out_len, uint64_t *length);
uint32_t amp_wide_stamp_order(uint32_t a, uint32_t b);

/* What the proved code takes for granted of the memory that it is lent, beside what amp.h says of it. */
_Static_assert(_Alignof(amp_reader) == 4, "a reader stands at a multiple of 4");
_Static_assert(_Alignof(int64_t) == 8, "a place of a row at a multiple of 8");
_Static_assert(_Alignof(uint32_t) == 4, "a start at a multiple of 4");
_Static_assert(sizeof(size_t) == 4 && sizeof(void *) == 4, "this is for pointers of 32 bits");
_Static_assert(__BYTE_ORDER__ == __ORDER_LITTLE_ENDIAN__, "a number begins with its lowest byte");

#endif
