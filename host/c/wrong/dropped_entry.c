/* -Werror=unused-result: a log is read, and nobody takes what is in it. */
#include "hubqr_log.h"

struct hubqr_log_entry entry;

void look(size_t used, const uint8_t *buffer, size_t buffer_len)
{
#ifdef RIGHT
    entry =
#endif
        hubqr_log_next(0, used, buffer, buffer_len);
}
