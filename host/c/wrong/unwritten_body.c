/* -Werror=uninitialized: a result is kept that nothing has written. The buffer need not hold anything, and is not warned of. */
#include "hubqr.h"

uint8_t keep(const uint8_t *record, int32_t *area)
{
    uint8_t buffer[HUBQR_LOG_RESULT_BYTES], result[HUBQR_RESULT_RECORD_BYTES];
#ifdef RIGHT
    struct hubqr_whole_reply whole =
        hubqr_whole(record, HUBQR_MATRIX_RECORD_BYTES, area, HUBQR_AREA_WORDS, result, sizeof result);
    if (whole.number != HUBQR_ACCEPTED) {
        return whole.number;
    }
#else
    (void)record;
    (void)area;
#endif
    return hubqr_log_add(HUBQR_LOG_RESULT, 20000, result, sizeof result, 0, buffer, sizeof buffer).number;
}
