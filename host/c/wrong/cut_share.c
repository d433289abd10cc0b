/* -Werror=overflow: a share of 65,536 is cut to 0, which the call would accept. */
#include "hubqr_desk.h"

#ifdef RIGHT
#define SHARE 120
#else
#define SHARE 65536
#endif

uint8_t share_out(struct hubqr_desk *desk)
{
    struct hubqr_shares shares = {{SHARE}};
    return hubqr_desk_set_shares_at(HUBQR_OPERATOR, desk, shares);
}
