/* -Werror=unused-result: nobody looks whether the round has begun, which a fitter may not do. */
#include "hubqr_desk.h"

uint8_t number;

void begin(struct hubqr_desk *desk)
{
#ifdef RIGHT
    number =
#endif
        hubqr_desk_begin_at(HUBQR_FITTER, desk);
}
