/* -Werror=unused-result: the used count with the entry is in the reply, and nobody takes it, so that the entry is lost. */
#include "hubqr_log.h"

struct hubqr_log_reply added;

void keep(uint8_t heard, size_t used, uint8_t *buffer, size_t buffer_len)
{
#ifdef RIGHT
    added =
#endif
        hubqr_log_add(HUBQR_LOG_HEARD, 20000, &heard, 1, used, buffer, buffer_len);
}
