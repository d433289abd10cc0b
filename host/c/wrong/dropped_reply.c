/* -Werror=unused-result: nobody looks whether Run was refused, and the job is lost. */
#include "hubqr.h"

struct hubqr_run_reply ran;

void work(struct hubqr_job job, int32_t *area)
{
#ifdef RIGHT
    ran =
#endif
        hubqr_run(job, 7, area, HUBQR_AREA_WORDS);
}
