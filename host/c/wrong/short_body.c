/* -Werror=stringop-overread: a result without its kind byte is said to have the 2,049 bytes of a body. */
#include "hubqr_log.h"

#ifdef RIGHT
#define BYTES HUBQR_RESULT_RECORD_BYTES
#else
#define BYTES (HUBQR_RESULT_RECORD_BYTES - 1)
#endif

static uint8_t body[BYTES];

uint8_t keep(size_t *used, uint8_t *buffer, size_t buffer_len)
{
    return hubqr_log_add_at(HUBQR_LOG_RESULT, 20000, body, HUBQR_RESULT_RECORD_BYTES, used, buffer, buffer_len);
}
