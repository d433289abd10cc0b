/*
 * What the tests of refused calls at the desk share. Every call is made by value and by pointer, and each has to answer its
 * number, the desk as it was handed over, and 0 in all other fields.
 */
#ifndef REFUSALS_H
#define REFUSALS_H

#include "check.h"

/* Who calls: the three roles, and numbers of no role, most of which would be one if they were cut to 2, 8, 16, 24 or 31 bits. */
enum { CALLERS = 20 };
extern const uint32_t callers[CALLERS];
/* Whether a caller has this role or one that may do more. */
int may(uint32_t caller, uint32_t role);

/* Numbers of no sector. Cut to a byte, to 16 bits or to its last three bits, each would be one. */
enum { NO_SECTORS = 12 };
extern const uint32_t no_sectors[NO_SECTORS];

/*
 * What a call for a sector is handed besides the role, the desk and the sector, the job of the sector and what it has left, and
 * the number that the call must answer those who may make it. What a call does not take stays 0.
 */
struct handed {
    const char *what;
    const uint8_t *record;
    size_t record_len;
    int32_t *area;
    size_t area_len;
    uint8_t *buffer;
    size_t buffer_len;
    struct hubqr_job job;
    uint16_t left, request;
    uint8_t number;
};

/* A call for a sector that must be refused with this number. */
typedef void call(uint32_t role, const struct handed *h, const struct hubqr_desk *desk, uint32_t sector, uint8_t number);
call refuse_hand_in, refuse_run, refuse_fetch, refuse_heard;
/* Makes a call by all callers: those who may make it are refused with this number, unless it is 0, and all others with 15. */
void refuse_callers(call *refuse, uint32_t role, const struct handed *h, const struct hubqr_desk *desk, uint32_t sector,
                    uint8_t number);

/* Likewise setting shares, which the operator is refused with this number, unless it is 0; and beginning a round. */
void refuse_shares(const char *what, const struct hubqr_desk *desk, struct hubqr_shares shares, uint8_t number);
void refuse_begin(const char *what, const struct hubqr_desk *desk);

#endif
