/* -Werror=unused-result: nobody looks whether the log is broken, so that what is too old may stay for ever. */
#include "hubqr_log.h"

uint8_t number;

void sweep(size_t *used, uint8_t *buffer, size_t buffer_len)
{
#ifdef RIGHT
    number =
#endif
        hubqr_log_sweep_at(20000, used, buffer, buffer_len);
}
