/* -Werror=unused-result: the shares are set in the desk of the reply, and nobody takes it. */
#include "hubqr_desk.h"

struct hubqr_desk_reply shared;

void share_out(struct hubqr_desk desk, struct hubqr_shares shares)
{
#ifdef RIGHT
    shared =
#endif
        hubqr_desk_set_shares(HUBQR_OPERATOR, desk, shares);
}
