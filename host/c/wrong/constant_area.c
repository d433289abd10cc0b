/* -Werror=discarded-qualifiers: a sector's Fetch is lent an area that may not be changed, and a matrix that waits is loaded there. */
#include "hubqr_desk.h"

#ifdef RIGHT
#define AREA int32_t
#else
#define AREA const int32_t
#endif

uint8_t finish(struct hubqr_desk *desk, AREA *area, uint8_t *buffer)
{
    return hubqr_desk_fetch_at(HUBQR_OPERATOR, desk, 3, area, HUBQR_AREA_WORDS, buffer, HUBQR_RESULT_RECORD_BYTES);
}
