#include "refusals.h"

const uint32_t callers[CALLERS] = {
    HUBQR_VIEWER, HUBQR_FITTER, HUBQR_OPERATOR, /* these first, and then numbers of no role */
    3, 4, 5, 6, 255, 256, 257, 258, 65535, 65536, 65537, 65538, 0x1000002, 0x80000000, 0x80000001, 0x80000002, UINT32_MAX,
};
const uint32_t no_sectors[NO_SECTORS] = {
    8, 9, 15, 255, 256, 263, 65535, 65536, 65543, 0x80000000, UINT32_MAX - 7, UINT32_MAX,
};

int may(uint32_t caller, uint32_t role)
{
    return role <= caller && caller <= HUBQR_OPERATOR;
}

static void check_hand_in(const char *what, struct hubqr_desk_load_reply reply, const struct hubqr_desk *desk, uint8_t number)
{
    CHECK(what, reply.number == number && reply.heard == 0 && is_job(reply.job, 0, 0));
    CHECK(what, same_desk(&reply.desk, desk));
}

void refuse_hand_in(uint32_t role, const struct handed *h, const struct hubqr_desk *desk, uint32_t sector, uint8_t number)
{
    struct hubqr_desk kept = *desk;
    struct hubqr_desk_load_reply by_value =
        hubqr_desk_hand_in(role, *desk, sector, h->record, h->record_len, h->area, h->area_len);
    struct hubqr_desk_load_reply by_pointer =
        hubqr_desk_hand_in_at(role, &kept, sector, h->record, h->record_len, h->area, h->area_len);
    check_hand_in(h->what, by_value, desk, number);
    check_hand_in(h->what, by_pointer, desk, number);
    CHECK(h->what, same_desk(&kept, desk));
}

/* The job is (0, 0) too, whatever job the sector has. */
static void check_run(const char *what, struct hubqr_desk_run_reply reply, const struct hubqr_desk *desk, uint8_t number)
{
    CHECK(what, reply.number == number && is_job(reply.job, 0, 0));
    CHECK(what, reply.count == 0 && reply.clamps_r == 0 && reply.clamps_q == 0);
    CHECK(what, same_desk(&reply.desk, desk));
}

void refuse_run(uint32_t role, const struct handed *h, const struct hubqr_desk *desk, uint32_t sector, uint8_t number)
{
    struct hubqr_desk kept = *desk;
    check_run(h->what, hubqr_desk_run(role, *desk, sector, h->request, h->area, h->area_len), desk, number);
    check_run(h->what, hubqr_desk_run_at(role, &kept, sector, h->request, h->area, h->area_len), desk, number);
    CHECK(h->what, same_desk(&kept, desk));
}

void refuse_fetch(uint32_t role, const struct handed *h, const struct hubqr_desk *desk, uint32_t sector, uint8_t number)
{
    struct hubqr_desk kept = *desk;
    struct hubqr_desk_reply reply = hubqr_desk_fetch(role, *desk, sector, h->area, h->area_len, h->buffer, h->buffer_len);
    CHECK(h->what, reply.number == number && same_desk(&reply.desk, desk));
    CHECK(h->what, hubqr_desk_fetch_at(role, &kept, sector, h->area, h->area_len, h->buffer, h->buffer_len) == number);
    CHECK(h->what, same_desk(&kept, desk));
}

void refuse_heard(uint32_t role, const struct handed *h, const struct hubqr_desk *desk, uint32_t sector, uint8_t number)
{
    struct hubqr_desk_heard_reply by_value = hubqr_desk_heard(role, *desk, sector);
    struct hubqr_desk_heard_reply by_pointer = hubqr_desk_heard_at(role, desk, sector);
    CHECK(h->what, by_value.number == number && by_value.heard == 0 && same_desk(&by_value.desk, desk));
    CHECK(h->what, by_pointer.number == number && by_pointer.heard == 0 && same_desk(&by_pointer.desk, desk));
}

void refuse_callers(call *refuse, uint32_t role, const struct handed *h, const struct hubqr_desk *desk, uint32_t sector,
                    uint8_t number)
{
    for (int n = 0; n < CALLERS; n++) {
        uint8_t due = may(callers[n], role) ? number : HUBQR_NOT_ALLOWED;
        if (due != HUBQR_ACCEPTED) {
            refuse(callers[n], h, desk, sector, due);
        }
    }
}

void refuse_shares(const char *what, const struct hubqr_desk *desk, struct hubqr_shares shares, uint8_t number)
{
    for (int n = 0; n < CALLERS; n++) {
        uint8_t due = may(callers[n], HUBQR_OPERATOR) ? number : HUBQR_NOT_ALLOWED;
        struct hubqr_desk kept = *desk;
        if (due != HUBQR_ACCEPTED) {
            struct hubqr_desk_reply reply = hubqr_desk_set_shares(callers[n], *desk, shares);
            CHECK(what, reply.number == due && same_desk(&reply.desk, desk));
            CHECK(what, hubqr_desk_set_shares_at(callers[n], &kept, shares) == due && same_desk(&kept, desk));
        }
    }
}

void refuse_begin(const char *what, const struct hubqr_desk *desk)
{
    for (int n = 0; n < CALLERS; n++) {
        struct hubqr_desk kept = *desk;
        if (!may(callers[n], HUBQR_OPERATOR)) {
            struct hubqr_desk_reply reply = hubqr_desk_begin(callers[n], *desk);
            CHECK(what, reply.number == HUBQR_NOT_ALLOWED && same_desk(&reply.desk, desk));
            CHECK(what, hubqr_desk_begin_at(callers[n], &kept) == HUBQR_NOT_ALLOWED && same_desk(&kept, desk));
        }
    }
}
