/* -Werror=nonnull: a null result is said to have bytes. */
#include "hubqr_verify.h"

#ifdef RIGHT
#define LENGTH 0
#else
#define LENGTH HUBQR_RESULT_RECORD_BYTES
#endif

struct hubqr_verdict check(const uint8_t *matrix)
{
    return hubqr_verify(matrix, HUBQR_MATRIX_RECORD_BYTES, NULL, LENGTH);
}
