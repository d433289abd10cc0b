/* -Werror=maybe-uninitialized: a sector's Fetch is lent an area that nothing has filled. */
#include "hubqr_desk.h"

uint8_t finish(struct hubqr_desk desk, const uint8_t *record, uint8_t *buffer)
{
    int32_t area[HUBQR_AREA_WORDS];
#ifdef RIGHT
    struct hubqr_desk_load_reply loaded =
        hubqr_desk_hand_in(HUBQR_OPERATOR, desk, 3, record, HUBQR_MATRIX_RECORD_BYTES, area, HUBQR_AREA_WORDS);
    desk = loaded.desk;
#else
    (void)record;
#endif
    return hubqr_desk_fetch(HUBQR_OPERATOR, desk, 3, area, HUBQR_AREA_WORDS, buffer, HUBQR_RESULT_RECORD_BYTES).number;
}
