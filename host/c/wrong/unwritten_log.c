/* -Werror=maybe-uninitialized: a log is swept in a buffer that nothing was ever written to. */
#include "hubqr_log.h"

uint8_t begin(size_t *used)
{
#ifdef RIGHT
    uint8_t buffer[HUBQR_LOG_HEARD_BYTES] = {0};
#else
    uint8_t buffer[HUBQR_LOG_HEARD_BYTES];
#endif
    return hubqr_log_sweep_at(20000, used, buffer, sizeof buffer);
}
