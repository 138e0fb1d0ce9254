/* The functions of amp.h for a processor whose pointers have 32 bits, over the proved ones, which wide.h declares.
 * Each call passes its arguments on as they are; a length is widened, and a count, a place or a length that comes
 * back is narrowed. That loses nothing: none is larger than the memory that was lent. A result is stored only
 * where the proved function stored one, so that a refusal leaves everything as it was. This file is tested, not
 * proved; docs/TARGETS.md says by what. */
#include "wide.h"

uint32_t amp_fresh(amp_reader *reader, uint32_t family)
{
    return amp_wide_fresh(reader, family);
}

uint32_t amp_feed(amp_reader *reader, const uint8_t *offered, size_t offered_len, int64_t *row, size_t row_len)
{
    return amp_wide_feed(reader, offered, offered_len, row, row_len);
}

uint32_t amp_close(amp_reader *reader)
{
    return amp_wide_close(reader);
}

uint32_t amp_read(uint32_t family, const uint8_t *bytes, size_t bytes_len, int64_t *row, size_t row_len)
{
    return amp_wide_read(family, bytes, bytes_len, row, row_len);
}

/* Where a function that gives a number for no stores its count, and only then. */
static uint32_t narrowed(uint32_t number, uint64_t wide, size_t *to)
{
    if (number == 0)
        *to = (size_t)wide;
    return number;
}

uint32_t amp_list(uint32_t family, const uint8_t *capture, size_t capture_len, uint32_t *starts, size_t starts_len,
                  size_t *count)
{
    uint64_t wide = 0;
    uint32_t number = amp_wide_list(family, capture, capture_len, starts, starts_len, &wide);

    return narrowed(number, wide, count);
}

size_t amp_next(uint32_t family, const uint8_t *capture, size_t capture_len, size_t place, uint32_t reports,
                size_t *start)
{
    uint64_t wide = 0, length = amp_wide_next(family, capture, capture_len, place, reports, &wide);

    if (length != 0)
        *start = (size_t)wide;
    return (size_t)length;
}

uint32_t amp_write(uint32_t kind, uint32_t code, const int64_t *values, size_t values_len, uint8_t *out,
                   size_t out_len, size_t *length)
{
    uint64_t wide = 0;
    uint32_t number = amp_wide_write(kind, code, values, values_len, out, out_len, &wide);

    return narrowed(number, wide, length);
}

uint32_t amp_write_enable(uint8_t *out, size_t out_len, size_t *length)
{
    uint64_t wide = 0;
    uint32_t number = amp_wide_write_enable(out, out_len, &wide);

    return narrowed(number, wide, length);
}

uint32_t amp_stamp_order(uint32_t a, uint32_t b)
{
    return amp_wide_stamp_order(a, b);
}
