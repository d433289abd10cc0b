/* -Werror=nonnull: the used count of the log that is added to is null. */
#include "hubqr_log.h"

#ifdef RIGHT
#define USED &used
#else
#define USED NULL
#endif

size_t used;

uint8_t keep(uint8_t heard, uint8_t *buffer, size_t buffer_len)
{
    return hubqr_log_add_at(HUBQR_LOG_HEARD, 20000, &heard, 1, USED, buffer, buffer_len);
}
