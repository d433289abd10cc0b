/* -Werror=nonnull: a null buffer is said to have bytes. */
#include "hubqr.h"

#ifdef RIGHT
#define LENGTH 0
#else
#define LENGTH HUBQR_RESULT_RECORD_BYTES
#endif

uint8_t factor(const uint8_t *record, int32_t *area)
{
    return hubqr_whole(record, HUBQR_MATRIX_RECORD_BYTES, area, HUBQR_AREA_WORDS, NULL, LENGTH).number;
}
