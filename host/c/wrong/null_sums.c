/* -Werror=nonnull: the sums are null. */
#include "hubqr_covariance.h"

#ifdef RIGHT
#define SUMS &sums
#else
#define SUMS NULL
#endif

struct hubqr_sums sums;

uint8_t hear(struct hubqr_snapshot snapshot)
{
    return hubqr_add_snapshot_at(SUMS, snapshot);
}
