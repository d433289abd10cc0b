/* -Werror=overflow: a number of more than 32 bits, which is no role, is cut to the operator's. */
#include "hubqr_desk.h"

#ifdef RIGHT
#define ROLE HUBQR_OPERATOR
#else
#define ROLE UINT64_C(0x100000002)
#endif

struct hubqr_desk_reply begin(struct hubqr_desk desk)
{
    return hubqr_desk_begin(ROLE, desk);
}
