/* -Werror=int-conversion: desk and role stand in each other's place, and an address would be taken for the role. */
#include "hubqr_desk.h"

#ifdef RIGHT
#define ROLE_AND_DESK role, desk
#else
#define ROLE_AND_DESK desk, role
#endif

uint8_t heard(uint32_t role, const struct hubqr_desk *desk)
{
    return hubqr_desk_heard_at(ROLE_AND_DESK, 3).heard;
}
