/* -Werror=unused-result: nobody looks whether the matrix was refused, so that the sector may wait for nothing. */
#include "hubqr_desk.h"

struct hubqr_desk_load_reply handed_in;

void hear(struct hubqr_desk *desk, const uint8_t *record, int32_t *area)
{
#ifdef RIGHT
    handed_in =
#endif
        hubqr_desk_hand_in_at(HUBQR_OPERATOR, desk, 3, record, HUBQR_MATRIX_RECORD_BYTES, area, HUBQR_AREA_WORDS);
}
