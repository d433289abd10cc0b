/* -Werror=maybe-uninitialized: Run is lent an area that nothing has filled. */
#include "hubqr.h"

uint32_t work(const uint8_t *record)
{
    int32_t area[HUBQR_AREA_WORDS];
    struct hubqr_job job = {0, 0};
#ifdef RIGHT
    struct hubqr_load_reply loaded = hubqr_load(record, HUBQR_MATRIX_RECORD_BYTES, area, HUBQR_AREA_WORDS);
    if (loaded.number != HUBQR_ACCEPTED) {
        return 0;
    }
    job = loaded.job;
#else
    (void)record;
#endif
    return hubqr_run(job, 7, area, HUBQR_AREA_WORDS).clamps_r;
}
