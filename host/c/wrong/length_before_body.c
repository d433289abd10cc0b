/* -Werror=int-conversion: the body's length stands before the body, and each would be taken for the other. */
#include "hubqr_log.h"

#ifdef RIGHT
#define BODY body, body_len
#else
#define BODY body_len, body
#endif

uint8_t keep(const uint8_t *body, size_t body_len, size_t *used, uint8_t *buffer, size_t buffer_len)
{
    return hubqr_log_add_at(HUBQR_LOG_RESULT, 20000, BODY, used, buffer, buffer_len);
}
