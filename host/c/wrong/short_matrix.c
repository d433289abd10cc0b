/* -Werror=stringop-overflow: a buffer without room for the kind byte is said to hold a matrix record. */
#include "hubqr_covariance.h"

#ifdef RIGHT
#define BYTES HUBQR_MATRIX_RECORD_BYTES
#else
#define BYTES (2 * HUBQR_SUM_WORDS)
#endif

static uint8_t record[BYTES];

uint8_t finish(const struct hubqr_sums *sums)
{
    return hubqr_write_matrix_at(sums, record, HUBQR_MATRIX_RECORD_BYTES);
}
