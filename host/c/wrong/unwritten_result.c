/* -Werror=uninitialized: a result is checked that nothing has written. */
#include "hubqr.h"

struct hubqr_verdict check(const uint8_t *matrix, int32_t *area)
{
    uint8_t result[HUBQR_RESULT_RECORD_BYTES];
#ifdef RIGHT
    struct hubqr_whole_reply factored =
        hubqr_whole(matrix, HUBQR_MATRIX_RECORD_BYTES, area, HUBQR_AREA_WORDS, result, sizeof result);
    if (factored.number != HUBQR_ACCEPTED) {
        return (struct hubqr_verdict){factored.number, 0};
    }
#else
    (void)area;
#endif
    return hubqr_verify(matrix, HUBQR_MATRIX_RECORD_BYTES, result, sizeof result);
}
