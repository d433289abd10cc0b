/* -Werror=stringop-overread: the buffer of a log that is read is said to be longer than it is. */
#include "hubqr_log.h"

#ifdef RIGHT
#define LENGTH sizeof buffer
#else
#define LENGTH (sizeof buffer + 1)
#endif

static uint8_t buffer[HUBQR_LOG_RESULT_BYTES];

struct hubqr_log_entry look(size_t used)
{
    return hubqr_log_next(0, used, buffer, LENGTH);
}
