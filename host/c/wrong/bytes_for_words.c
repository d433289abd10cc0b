/* -Werror=stringop-overflow: the area's length is told in bytes, so it is said to be four times as long as it is. */
#include "hubqr.h"

#ifdef RIGHT
#define LENGTH (sizeof area / sizeof *area)
#else
#define LENGTH sizeof area
#endif

static int32_t area[HUBQR_AREA_WORDS];

uint8_t heard(const uint8_t *record, size_t record_len)
{
    return hubqr_load(record, record_len, area, LENGTH).heard;
}
