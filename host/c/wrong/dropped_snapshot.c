/* -Werror=unused-result: nobody looks whether the snapshot was added. */
#include "hubqr_covariance.h"

uint8_t number;

void hear(struct hubqr_sums *sums, struct hubqr_snapshot snapshot)
{
#ifdef RIGHT
    number =
#endif
        hubqr_add_snapshot_at(sums, snapshot);
}
