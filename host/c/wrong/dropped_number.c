/* -Werror=unused-result: nobody looks whether Fetch was refused. */
#include "hubqr.h"

uint8_t number;

void finish(struct hubqr_job job, const int32_t *area, uint8_t *buffer)
{
#ifdef RIGHT
    number =
#endif
        hubqr_fetch(job, area, HUBQR_AREA_WORDS, buffer, HUBQR_RESULT_RECORD_BYTES);
}
