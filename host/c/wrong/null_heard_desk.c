/* -Werror=nonnull: the desk that a viewer's call looks at is null. */
#include "hubqr_desk.h"

#ifdef RIGHT
#define DESK &desk
#else
#define DESK NULL
#endif

struct hubqr_desk desk;

uint8_t heard(void)
{
    return hubqr_desk_heard_at(HUBQR_VIEWER, DESK, 3).heard;
}
