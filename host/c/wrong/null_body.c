/* -Werror=nonnull: a null body is said to have bytes. */
#include "hubqr_log.h"

#ifdef RIGHT
#define LENGTH 0
#else
#define LENGTH 1
#endif

struct hubqr_log_reply keep(size_t used, uint8_t *buffer, size_t buffer_len)
{
    return hubqr_log_add(HUBQR_LOG_HEARD, 20000, NULL, LENGTH, used, buffer, buffer_len);
}
