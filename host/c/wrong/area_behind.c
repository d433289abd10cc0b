/* -Werror=stringop-overflow: the areas of all sectors are one array, and the one behind the last is lent. */
#include "hubqr_desk.h"

#ifdef RIGHT
#define AREA areas[HUBQR_SECTORS - 1]
#else
#define AREA areas[HUBQR_SECTORS]
#endif

static int32_t areas[HUBQR_SECTORS][HUBQR_AREA_WORDS];

uint8_t heard(struct hubqr_desk *desk, const uint8_t *record)
{
    return hubqr_desk_hand_in_at(HUBQR_OPERATOR, desk, 7, record, HUBQR_MATRIX_RECORD_BYTES, AREA, HUBQR_AREA_WORDS).heard;
}
