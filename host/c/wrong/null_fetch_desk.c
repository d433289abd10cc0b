/* -Werror=nonnull: the desk that a fitter fetches from is null. */
#include "hubqr_desk.h"

#ifdef RIGHT
#define DESK &desk
#else
#define DESK NULL
#endif

struct hubqr_desk desk;

uint8_t look(int32_t *area, uint8_t *buffer)
{
    return hubqr_desk_fetch_at(HUBQR_FITTER, DESK, 3, area, HUBQR_AREA_WORDS, buffer, HUBQR_RESULT_RECORD_BYTES);
}
