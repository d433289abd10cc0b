/* -Werror=stringop-overflow: a buffer without room for the kind byte is said to hold a sector's result record. */
#include "hubqr_desk.h"

#ifdef RIGHT
#define BYTES HUBQR_RESULT_RECORD_BYTES
#else
#define BYTES (4 * HUBQR_AREA_WORDS)
#endif

static uint8_t buffer[BYTES];

uint8_t finish(struct hubqr_desk *desk, int32_t *area)
{
    return hubqr_desk_fetch_at(HUBQR_OPERATOR, desk, 3, area, HUBQR_AREA_WORDS, buffer, HUBQR_RESULT_RECORD_BYTES);
}
