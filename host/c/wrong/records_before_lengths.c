/* -Werror=int-conversion: both records stand before both lengths, and an address would be taken for a length. */
#include "hubqr_verify.h"

#ifdef RIGHT
#define RECORDS matrix, HUBQR_MATRIX_RECORD_BYTES, result, HUBQR_RESULT_RECORD_BYTES
#else
#define RECORDS matrix, result, HUBQR_MATRIX_RECORD_BYTES, HUBQR_RESULT_RECORD_BYTES
#endif

struct hubqr_verdict check(const uint8_t *matrix, const uint8_t *result)
{
    return hubqr_verify(RECORDS);
}
