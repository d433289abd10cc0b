/* -Werror=int-conversion: the heard byte itself stands where its address belongs. */
#include "hubqr_log.h"

#ifdef RIGHT
#define BODY &heard
#else
#define BODY heard
#endif

uint8_t keep(uint8_t heard, size_t *used, uint8_t *buffer, size_t buffer_len)
{
    return hubqr_log_add_at(HUBQR_LOG_HEARD, 20000, BODY, 1, used, buffer, buffer_len);
}
