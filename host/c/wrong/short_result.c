/* -Werror=stringop-overread: a result record without its kind byte is said to have it. */
#include "hubqr_weights.h"

#ifdef RIGHT
#define BYTES HUBQR_RESULT_RECORD_BYTES
#else
#define BYTES (HUBQR_RESULT_RECORD_BYTES - 1)
#endif

static uint8_t record[BYTES];

double aim(struct hubqr_snapshot targets)
{
    return hubqr_weights(record, HUBQR_RESULT_RECORD_BYTES, targets).weights[0].re;
}
