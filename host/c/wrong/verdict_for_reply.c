/* -Werror=incompatible-pointer-types: a verdict is taken for what Load answers, whose heard byte stands in the place of yes. */
#include "hubqr.h"

#ifdef RIGHT
#define REPLY hubqr_verdict
#define ANSWER yes
#else
#define REPLY hubqr_load_reply
#define ANSWER heard
#endif

int is_right(const struct hubqr_verdict *verdict)
{
    const struct REPLY *reply = verdict;
    return reply->number == HUBQR_ACCEPTED && reply->ANSWER;
}
