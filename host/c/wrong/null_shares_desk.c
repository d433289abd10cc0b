/* -Werror=nonnull: the desk that shares are set in is null. */
#include "hubqr_desk.h"

#ifdef RIGHT
#define DESK &desk
#else
#define DESK NULL
#endif

struct hubqr_desk desk;

uint8_t share_out(struct hubqr_shares shares)
{
    return hubqr_desk_set_shares_at(HUBQR_OPERATOR, DESK, shares);
}
