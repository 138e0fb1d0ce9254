/* The least call. It stands in a file of its own, so that it is called, as amp_feed is, and not laid out in its caller. */
#include "least.h"

uint32_t least_feed(amp_reader *reader, const uint8_t *offered, size_t offered_len,
                    int64_t *row, size_t row_len)
{
    if (row_len < AMP_VALUES)
        return AMP_NO_ROOM;
    reader->held[0] = offered[0];
    reader->count = 1;
    row[AMP_KIND] = AMP_MORE;
    row[AMP_CODE] = 0;
    row[AMP_TAKEN] = (int64_t)offered_len;
    row[AMP_START] = 0;
    row[AMP_SKIPPED] = 0;
    row[AMP_LENGTH] = 0;
    return 0;
}
