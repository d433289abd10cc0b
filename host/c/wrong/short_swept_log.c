/* -Werror=stringop-overflow: the buffer of a log that is swept is said to be longer than it is. */
#include "hubqr_log.h"

#ifdef RIGHT
#define LENGTH sizeof buffer
#else
#define LENGTH (sizeof buffer + 1)
#endif

static uint8_t buffer[HUBQR_LOG_RESULT_BYTES];

uint8_t sweep(size_t *used)
{
    return hubqr_log_sweep_at(20000, used, buffer, LENGTH);
}
