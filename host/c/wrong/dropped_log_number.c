/* -Werror=unused-result: nobody looks whether there was room for the entry. */
#include "hubqr_log.h"

uint8_t number;

void keep(uint8_t heard, size_t *used, uint8_t *buffer, size_t buffer_len)
{
#ifdef RIGHT
    number =
#endif
        hubqr_log_add_at(HUBQR_LOG_HEARD, 20000, &heard, 1, used, buffer, buffer_len);
}
