/* -Werror=int-conversion: a round is begun for no role, and the desk stands where the role belongs. */
#include "hubqr_desk.h"

#ifdef RIGHT
#define ROLE HUBQR_OPERATOR,
#else
#define ROLE
#endif

uint8_t number;

void begin(struct hubqr_desk *desk)
{
    number = hubqr_desk_begin_at(ROLE desk);
}
