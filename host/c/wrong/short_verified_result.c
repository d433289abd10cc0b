/* -Werror=stringop-overread: a result without its kind byte is said to have it. */
#include "hubqr_verify.h"

#ifdef RIGHT
#define BYTES HUBQR_RESULT_RECORD_BYTES
#else
#define BYTES (HUBQR_RESULT_RECORD_BYTES - 1)
#endif

static uint8_t result[BYTES];

struct hubqr_verdict check(const uint8_t *matrix)
{
    return hubqr_verify(matrix, HUBQR_MATRIX_RECORD_BYTES, result, HUBQR_RESULT_RECORD_BYTES);
}
