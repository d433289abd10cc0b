/* -Werror=nonnull: a null matrix is said to have bytes. */
#include "hubqr_verify.h"

#ifdef RIGHT
#define LENGTH 0
#else
#define LENGTH HUBQR_MATRIX_RECORD_BYTES
#endif

struct hubqr_verdict check(const uint8_t *result)
{
    return hubqr_verify(NULL, LENGTH, result, HUBQR_RESULT_RECORD_BYTES);
}
