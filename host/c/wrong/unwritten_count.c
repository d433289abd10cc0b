/* -Werror=uninitialized: a log begins without a used count. */
#include "hubqr_log.h"

uint8_t keep(uint8_t heard, uint8_t *buffer, size_t buffer_len)
{
    size_t used;
#ifdef RIGHT
    used = 0;
#endif
    return hubqr_log_add_at(HUBQR_LOG_HEARD, 20000, &heard, 1, &used, buffer, buffer_len);
}
