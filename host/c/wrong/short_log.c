/* -Werror=stringop-overflow: a buffer for a body is said to have room for the entry, with kind and day. */
#include "hubqr_log.h"

#ifdef RIGHT
#define BYTES HUBQR_LOG_RESULT_BYTES
#else
#define BYTES HUBQR_RESULT_RECORD_BYTES
#endif

static uint8_t buffer[BYTES];

struct hubqr_log_reply keep(const uint8_t *result, size_t used)
{
    return hubqr_log_add(HUBQR_LOG_RESULT, 20000, result, HUBQR_RESULT_RECORD_BYTES, used, buffer, HUBQR_LOG_RESULT_BYTES);
}
