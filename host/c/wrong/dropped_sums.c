/* -Werror=unused-result: the sums with the snapshot added are in the reply, and nobody takes them. */
#include "hubqr_covariance.h"

struct hubqr_add_reply added;

void hear(struct hubqr_sums sums, struct hubqr_snapshot snapshot)
{
#ifdef RIGHT
    added =
#endif
        hubqr_add_snapshot(snapshot, sums);
}
