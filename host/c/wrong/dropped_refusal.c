/* -Werror=unused-result: nobody looks whether the shares were refused, so that the sectors may have others. */
#include "hubqr_desk.h"

uint8_t number;

void share_out(struct hubqr_desk *desk, struct hubqr_shares shares)
{
#ifdef RIGHT
    number =
#endif
        hubqr_desk_set_shares_at(HUBQR_OPERATOR, desk, shares);
}
