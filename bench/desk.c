/* Rounds, shares and a sector's calls as the requests word them, with all their tests: first the tests, then the work. */
#include "desk.h"

#include "records.h"

#include <string.h>

struct hubqr_desk_reply NAME(desk_begin)(uint32_t role, struct hubqr_desk desk)
{
    if (role != HUBQR_OPERATOR) {
        return (struct hubqr_desk_reply){desk, HUBQR_NOT_ALLOWED};
    }
    memcpy(desk.left, desk.shares, sizeof desk.left);
    return (struct hubqr_desk_reply){desk, HUBQR_ACCEPTED};
}

struct hubqr_desk_reply NAME(desk_set_shares)(uint32_t role, struct hubqr_desk desk, struct hubqr_shares shares)
{
    if (role != HUBQR_OPERATOR) {
        return (struct hubqr_desk_reply){desk, HUBQR_NOT_ALLOWED};
    }
    uint32_t total = 0;
    for (int k = 0; k < HUBQR_SECTORS; k++) {
        total += shares.shares[k];
    }
    if (total > HUBQR_ROUND_TURNS) {
        return (struct hubqr_desk_reply){desk, HUBQR_SHARES_EXCEED_ROUND};
    }
    memcpy(desk.shares, shares.shares, sizeof desk.shares);
    return (struct hubqr_desk_reply){desk, HUBQR_ACCEPTED};
}

static uint8_t hand_in_refusal(uint32_t role, uint32_t sector, const uint8_t *record, size_t record_len, size_t area_len)
{
    if (role != HUBQR_OPERATOR) {
        return HUBQR_NOT_ALLOWED;
    }
    if (sector >= HUBQR_SECTORS) {
        return HUBQR_NO_SUCH_SECTOR;
    }
    if (record_len == 0 || record[0] != HUBQR_KIND_MATRIX) {
        return HUBQR_WRONG_KIND;
    }
    if (record_len != HUBQR_MATRIX_RECORD_BYTES) {
        return HUBQR_WRONG_LENGTH;
    }
    if (area_len < HUBQR_AREA_WORDS) {
        return HUBQR_AREA_TOO_SHORT;
    }
    return any_heard(record) ? HUBQR_ACCEPTED : HUBQR_NONE_HEARD;
}

/* Loads a record that passed the tests. */
static void seat(struct hubqr_desk *desk, uint32_t sector, const uint8_t *record, int32_t *area, size_t area_len)
{
    struct hubqr_load_reply loaded = hubqr_load(record, HUBQR_MATRIX_RECORD_BYTES, area, area_len);
    desk->jobs[sector] = loaded.job;
    desk->heard[sector] = loaded.heard;
    desk->waits[sector] = 0;
}

struct hubqr_desk_load_reply NAME(desk_hand_in)(uint32_t role, struct hubqr_desk desk, uint32_t sector, const uint8_t *record,
                                                size_t record_len, int32_t *area, size_t area_len)
{
    struct hubqr_desk_load_reply reply = {desk, hand_in_refusal(role, sector, record, record_len, area_len), 0, {0, 0}};
    if (reply.number != HUBQR_ACCEPTED) {
        return reply;
    }
    if (desk.waits[sector] != 0 || desk.jobs[sector].turn < HUBQR_TURNS) {
        reply.desk.waits[sector] = 1;
        memcpy(reply.desk.records + HUBQR_MATRIX_RECORD_BYTES * sector, record, HUBQR_MATRIX_RECORD_BYTES);
    } else {
        seat(&reply.desk, sector, record, area, area_len);
    }
    reply.heard = reply.desk.heard[sector];
    reply.job = reply.desk.jobs[sector];
    return reply;
}

static uint8_t run_refusal(uint32_t role, const struct hubqr_desk *desk, uint32_t sector, uint16_t request, size_t area_len)
{
    if (role != HUBQR_OPERATOR) {
        return HUBQR_NOT_ALLOWED;
    }
    if (sector >= HUBQR_SECTORS) {
        return HUBQR_NO_SUCH_SECTOR;
    }
    if (area_len < HUBQR_AREA_WORDS) {
        return HUBQR_AREA_TOO_SHORT;
    }
    struct hubqr_job job = desk->jobs[sector];
    if (job.turn > HUBQR_TURNS || job.made > job.turn) {
        return HUBQR_NO_SUCH_JOB;
    }
    return request > 0 && job.turn < HUBQR_TURNS && desk->left[sector] == 0 ? HUBQR_COUNT_USED_UP : HUBQR_ACCEPTED;
}

/* The engine's Run stops where the job does, so that what it went on by is what is granted. */
struct hubqr_desk_run_reply NAME(desk_run)(uint32_t role, struct hubqr_desk desk, uint32_t sector, uint16_t request,
                                           int32_t *area, size_t area_len)
{
    struct hubqr_desk_run_reply reply = {desk, run_refusal(role, &desk, sector, request, area_len), {0, 0}, 0, 0, 0};
    if (reply.number != HUBQR_ACCEPTED) {
        return reply;
    }
    uint16_t left = desk.left[sector];
    struct hubqr_run_reply ran = hubqr_run(desk.jobs[sector], request < left ? request : left, area, area_len);
    reply.desk.jobs[sector] = ran.job;
    reply.desk.left[sector] = (uint16_t)(left - ran.count);
    reply.job = ran.job;
    reply.count = ran.count;
    reply.clamps_r = ran.clamps_r;
    reply.clamps_q = ran.clamps_q;
    return reply;
}

struct hubqr_desk_reply NAME(desk_fetch)(uint32_t role, struct hubqr_desk desk, uint32_t sector, int32_t *area,
                                         size_t area_len, uint8_t *buffer, size_t buffer_len)
{
    if (role != HUBQR_FITTER && role != HUBQR_OPERATOR) {
        return (struct hubqr_desk_reply){desk, HUBQR_NOT_ALLOWED};
    }
    struct hubqr_desk_reply reply = {desk, HUBQR_NO_SUCH_SECTOR};
    if (sector >= HUBQR_SECTORS) {
        return reply;
    }
    reply.number = hubqr_fetch(desk.jobs[sector], area, area_len, buffer, buffer_len);
    if (reply.number == HUBQR_ACCEPTED && role == HUBQR_OPERATOR && desk.waits[sector] != 0) {
        seat(&reply.desk, sector, desk.records + HUBQR_MATRIX_RECORD_BYTES * sector, area, area_len);
    }
    return reply;
}
