/* -Werror=stringop-overread: a matrix of 256 bytes is said to have 257. */
#include "hubqr_verify.h"

#ifdef RIGHT
#define BYTES HUBQR_MATRIX_RECORD_BYTES
#else
#define BYTES (HUBQR_MATRIX_RECORD_BYTES - 1)
#endif

static uint8_t matrix[BYTES];

struct hubqr_verdict check(const uint8_t *result)
{
    return hubqr_verify(matrix, HUBQR_MATRIX_RECORD_BYTES, result, HUBQR_RESULT_RECORD_BYTES);
}
