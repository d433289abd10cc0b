/* -Werror=int-conversion: what adding answers is taken for the number alone, and the used count is lost. */
#include "hubqr_log.h"

#ifdef RIGHT
#define NUMBER reply->number
#else
#define NUMBER reply
#endif

const char *said(const struct hubqr_log_reply *reply)
{
    return hubqr_refusal_words(NUMBER);
}
