/* -Werror=overflow: a number of more than 32 bits, which is no kind, is cut to that of a heard byte. */
#include "hubqr_log.h"

#ifdef RIGHT
#define KIND HUBQR_LOG_HEARD
#else
#define KIND UINT64_C(0x100000007)
#endif

uint8_t keep(uint8_t heard, size_t *used, uint8_t *buffer, size_t buffer_len)
{
    return hubqr_log_add_at(KIND, 20000, &heard, 1, used, buffer, buffer_len);
}
