/* -Werror=unused-result: the heard byte is in the reply, and nobody takes it. */
#include "hubqr_desk.h"

struct hubqr_desk_heard_reply heard;

void look(struct hubqr_desk desk)
{
#ifdef RIGHT
    heard =
#endif
        hubqr_desk_heard(HUBQR_VIEWER, desk, 3);
}
