/* -Werror=stringop-overflow: an area of 511 words is said to have 512. */
#include "hubqr.h"

#ifdef RIGHT
#define WORDS HUBQR_AREA_WORDS
#else
#define WORDS (HUBQR_AREA_WORDS - 1)
#endif

static int32_t area[WORDS];

struct hubqr_job work(struct hubqr_job job)
{
    return hubqr_run(job, 7, area, HUBQR_AREA_WORDS).job;
}
