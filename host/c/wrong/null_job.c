/* -Werror=nonnull: the job is null. */
#include "hubqr.h"

#ifdef RIGHT
#define JOB &job
#else
#define JOB NULL
#endif

struct hubqr_job job;

struct hubqr_run_reply work(int32_t *area)
{
    return hubqr_run_at(JOB, 7, area, HUBQR_AREA_WORDS);
}
