/* -Werror=unused-result: the desk is in the reply, and nobody takes it, so that the turns granted are granted again. */
#include "hubqr_desk.h"

struct hubqr_desk_run_reply ran;

void work(struct hubqr_desk desk, int32_t *area)
{
#ifdef RIGHT
    ran =
#endif
        hubqr_desk_run(HUBQR_OPERATOR, desk, 3, 15, area, HUBQR_AREA_WORDS);
}
