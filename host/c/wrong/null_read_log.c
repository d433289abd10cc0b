/* -Werror=nonnull: the null buffer of a log that is read is said to have bytes. */
#include "hubqr_log.h"

#ifdef RIGHT
#define LENGTH 0
#else
#define LENGTH HUBQR_LOG_HEARD_BYTES
#endif

struct hubqr_log_entry look(void)
{
    return hubqr_log_next(0, 0, NULL, LENGTH);
}
