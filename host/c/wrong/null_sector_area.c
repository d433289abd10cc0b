/* -Werror=nonnull: the null area of a sector that was never loaded is said to have words. */
#include "hubqr_desk.h"

#ifdef RIGHT
#define LENGTH 0
#else
#define LENGTH HUBQR_AREA_WORDS
#endif

uint8_t work(struct hubqr_desk desk)
{
    return hubqr_desk_run(HUBQR_OPERATOR, desk, 3, 15, NULL, LENGTH).number;
}
