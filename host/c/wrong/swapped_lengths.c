/* -Werror=stringop-overread: matrix and result have each other's length. */
#include "hubqr_verify.h"

#ifdef RIGHT
#define LENGTHS(first, second) matrix, first, result, second
#else
#define LENGTHS(first, second) matrix, second, result, first
#endif

static uint8_t matrix[HUBQR_MATRIX_RECORD_BYTES], result[HUBQR_RESULT_RECORD_BYTES];

struct hubqr_verdict check(void)
{
    return hubqr_verify(LENGTHS(sizeof matrix, sizeof result));
}
