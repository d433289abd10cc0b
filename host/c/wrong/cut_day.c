/* -Werror=overflow: the time in milliseconds is handed over for the day, and is cut to 32 bits. */
#include "hubqr_log.h"

#define MILLISECONDS INT64_C(1728000000000)

#ifdef RIGHT
#define DAY (MILLISECONDS / 86400000)
#else
#define DAY MILLISECONDS
#endif

uint8_t sweep(size_t *used, uint8_t *buffer, size_t buffer_len)
{
    return hubqr_log_sweep_at(DAY, used, buffer, buffer_len);
}
