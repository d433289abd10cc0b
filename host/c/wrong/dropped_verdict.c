/* -Werror=unused-result: nobody looks at the verdict, so that a wrong result is used. */
#include "hubqr_verify.h"

struct hubqr_verdict verdict;

void check(const uint8_t *matrix, const uint8_t *result)
{
#ifdef RIGHT
    verdict =
#endif
        hubqr_verify(matrix, HUBQR_MATRIX_RECORD_BYTES, result, HUBQR_RESULT_RECORD_BYTES);
}
