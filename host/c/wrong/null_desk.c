/* -Werror=nonnull: the desk is null. */
#include "hubqr_desk.h"

#ifdef RIGHT
#define DESK &desk
#else
#define DESK NULL
#endif

struct hubqr_desk desk;

uint8_t begin(void)
{
    return hubqr_desk_begin_at(HUBQR_OPERATOR, DESK);
}
