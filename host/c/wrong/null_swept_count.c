/* -Werror=nonnull: the used count of the log that is swept is null. */
#include "hubqr_log.h"

#ifdef RIGHT
#define USED &used
#else
#define USED NULL
#endif

size_t used;

uint8_t sweep(uint8_t *buffer, size_t buffer_len)
{
    return hubqr_log_sweep_at(20000, USED, buffer, buffer_len);
}
