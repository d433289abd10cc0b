/* -Werror=stringop-overflow: an area of 511 words is said to have the 512 that a sector's Fetch may fill. */
#include "hubqr_desk.h"

#ifdef RIGHT
#define WORDS HUBQR_AREA_WORDS
#else
#define WORDS (HUBQR_AREA_WORDS - 1)
#endif

static int32_t area[WORDS];

uint8_t finish(struct hubqr_desk desk, uint8_t *buffer)
{
    return hubqr_desk_fetch(HUBQR_OPERATOR, desk, 3, area, HUBQR_AREA_WORDS, buffer, HUBQR_RESULT_RECORD_BYTES).number;
}
