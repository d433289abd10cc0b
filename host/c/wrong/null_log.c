/* -Werror=nonnull: the null buffer of a log without entries is said to have room. */
#include "hubqr_log.h"

#ifdef RIGHT
#define LENGTH 0
#else
#define LENGTH HUBQR_LOG_HEARD_BYTES
#endif

struct hubqr_log_reply sweep(void)
{
    return hubqr_log_sweep(20000, 0, NULL, LENGTH);
}
