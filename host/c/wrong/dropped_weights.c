/* -Werror=unused-result: the weights are in the reply, and nobody takes them. */
#include "hubqr_weights.h"

struct hubqr_weights_reply weighted;

void aim(const uint8_t *record, struct hubqr_snapshot targets)
{
#ifdef RIGHT
    weighted =
#endif
        hubqr_weights(record, HUBQR_RESULT_RECORD_BYTES, targets);
}
