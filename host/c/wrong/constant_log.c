/* -Werror=discarded-qualifiers: a log is swept in a buffer that may not be changed. */
#include "hubqr_log.h"

#ifdef RIGHT
#define BUFFER uint8_t
#else
#define BUFFER const uint8_t
#endif

uint8_t sweep(size_t *used, BUFFER *buffer, size_t buffer_len)
{
    return hubqr_log_sweep_at(20000, used, buffer, buffer_len);
}
