/* -Werror=stringop-overread: a record of 256 bytes is said to have 257. */
#include "hubqr_desk.h"

#ifdef RIGHT
#define BYTES HUBQR_MATRIX_RECORD_BYTES
#else
#define BYTES (HUBQR_MATRIX_RECORD_BYTES - 1)
#endif

static uint8_t record[BYTES];

uint8_t heard(struct hubqr_desk desk, int32_t *area)
{
    return hubqr_desk_hand_in(HUBQR_OPERATOR, desk, 3, record, HUBQR_MATRIX_RECORD_BYTES, area, HUBQR_AREA_WORDS).heard;
}
