/* -Werror=unused-result: nobody looks whether the sector's Fetch was refused. */
#include "hubqr_desk.h"

uint8_t number;

void finish(struct hubqr_desk *desk, int32_t *area, uint8_t *buffer)
{
#ifdef RIGHT
    number =
#endif
        hubqr_desk_fetch_at(HUBQR_OPERATOR, desk, 3, area, HUBQR_AREA_WORDS, buffer, HUBQR_RESULT_RECORD_BYTES);
}
