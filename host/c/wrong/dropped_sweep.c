/* -Werror=unused-result: the used count after the sweep is in the reply, and nobody takes it, so that what was swept comes back. */
#include "hubqr_log.h"

struct hubqr_log_reply swept;

void sweep(size_t used, uint8_t *buffer, size_t buffer_len)
{
#ifdef RIGHT
    swept =
#endif
        hubqr_log_sweep(20000, used, buffer, buffer_len);
}
