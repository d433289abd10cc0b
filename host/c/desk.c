/* The desk: rounds, shares and what they grant, by accepted calls. */
#include "sectors.h"

#include <string.h>

static void test_new(void)
{
    start();
    for (uint32_t k = 0; k < HUBQR_SECTORS; k++) {
        CHECK("a new desk stands at the start of a round", desk.shares[k] == 15 && desk.left[k] == 15);
        CHECK("no sector of a new desk is loaded", is_job(desk.jobs[k], 120, 0) && desk.heard[k] == 0);
        CHECK("no matrix waits at a new desk", desk.waits[k] == 0);
        heard_is("nothing is heard in a sector that is not loaded", k, 0);
    }
    for (size_t n = 0; n < sizeof desk.records; n++) {
        CHECK("a new desk has no record", desk.records[n] == 0);
    }
    begin("a round begins at a new desk");
}

/* Eight sectors with the first shares, whatever they request, are finished after eight rounds. */
static void test_first_shares(void)
{
    start();
    for (uint32_t k = 0; k < HUBQR_SECTORS; k++) {
        load("a matrix for each sector", k, k);
    }
    for (int round = 0; round < 8; round++) {
        begin("each of eight rounds");
        for (uint32_t k = 0; k < HUBQR_SECTORS; k++) {
            run("15 turns for each sector", k, k % 2 == 0 ? 15 : 65535, 15);
            CHECK("the count is used up", desk.left[k] == 0);
        }
    }
    for (uint32_t k = 0; k < HUBQR_SECTORS; k++) {
        fetch_whole("each sector has its own result", k, k);
        fetch_whole("and has it again", k, k);
        heard_is("the heard byte outlasts Fetch", k, heard_in(k));
    }
    CHECK("skipped turns are paid for, and not counted as made", is_job(desk.jobs[0], 120, 22));
    CHECK("a full matrix costs all turns", is_job(desk.jobs[7], 120, 120));
}

/* Shares count from the next round on. Whoever comes first takes nothing from the others, and what a sector has left is lost. */
static void test_uneven_shares(void)
{
    start();
    load("a matrix for sector 3", 3, 3);
    load("a matrix for sector 5", 5, 5);
    load("a matrix for sector 6", 6, 6);
    run("a part of the first share", 3, 10, 10);
    set_shares("shares in a round", (struct hubqr_shares){{0, 0, 0, 75, 0, 40, 5, 0}});
    run("what is left of the first share", 3, 65535, 5);
    run("all of the first share", 6, 65535, 15);
    begin("a round by other shares, with 15 turns left over of sector 5");
    run("no more than the share", 3, 65535, 75);
    run("a share that no other took from", 5, 65535, 40);
    run("a part of a share", 6, 3, 3);
    run("request 0 when the count is used up", 3, 0, 0);
    set_shares("none for sector 6, and fewer in total", (struct hubqr_shares){{0, 0, 0, 35, 0, 80, 0, 0}});
    run("what is left of a share that is gone", 6, 65535, 2);
    begin("a round with nothing for sector 6");
    run("what the job has left", 3, 65535, 30);
    run("finished, whatever is requested", 3, 65535, 0);
    run("all that the job and the sector have left", 5, 81, 80);
    run("finished when the count is used up", 5, 1, 0);
    run("request 0 without a share", 6, 0, 0);
    begin_shared("the last round", 6, 119);
    run("what the job has left, again", 6, 120, 100);
    CHECK("turns are left over", desk.left[6] == 19);
    fetch_whole("sector 3 is finished", 3, 3);
    fetch_whole("sector 5 is finished", 5, 5);
    fetch_whole("sector 6 is finished", 6, 6);
}

/* In each round the other sector is handed a matrix, which may wait, requests all, and fetches a result when one is finished. */
static void serve_other(uint32_t sector, uint16_t share)
{
    uint16_t left = (uint16_t)(HUBQR_TURNS - desk.jobs[sector].turn);
    if (left == 0 && desk.waits[sector] == 0) {
        load("a matrix for the other sector", sector, sector);
        left = HUBQR_TURNS;
    } else {
        let_wait("an early matrix for the other sector", sector, sector);
    }
    run("the other sector requests all", sector, share == 0 ? 0 : 65535, share < left ? share : left);
    if (desk.jobs[sector].turn == HUBQR_TURNS && desk.waits[sector] != 0) {
        fetch_whole_next("the other sector's result", sector, sector, sector);
    }
}

/* A sector that requests its share in each round is finished after 120 divided by it, rounded up, whatever another requests. */
static void test_rounds_of_a_share(void)
{
    static const uint16_t shares[] = {1, 2, 7, 15, 16, 39, 40, 41, 59, 60, 61, 119, 120};
    for (size_t n = 0; n < sizeof shares / sizeof *shares; n++) {
        uint16_t share = shares[n];
        int rounds = 0;
        start();
        load("a matrix for a sector with a share", 2, 2);
        for (; desk.jobs[2].turn < HUBQR_TURNS; rounds++) {
            begin_shared("a round with a share", 2, share);
            serve_other(3, (uint16_t)(HUBQR_ROUND_TURNS - share));
            uint16_t left = (uint16_t)(HUBQR_TURNS - desk.jobs[2].turn);
            run("the share, or what the job has left", 2, share, share < left ? share : left);
        }
        CHECK("120 divided by the share, rounded up", rounds == (120 + share - 1) / share);
        fetch_whole("the result", 2, 2);
    }
}

/* The smallest of the request, what the sector has left and what the job has left, each of them in its turn, and none at all. */
static const struct {
    uint32_t turn, made;
    uint16_t left, request, granted;
} grants[] = {
    {0, 0, 120, 0, 0},
    {0, 0, 120, 1, 1},
    {0, 0, 120, 119, 119},
    {0, 0, 120, 120, 120},
    {0, 0, 120, 121, 120},
    {0, 0, 120, 65535, 120},
    {0, 0, 7, 6, 6},
    {0, 0, 7, 7, 7},
    {0, 0, 7, 8, 7},
    {0, 0, 1, 65535, 1},
    {60, 3, 60, 60, 60},
    {60, 60, 61, 61, 60},
    {60, 0, 59, 61, 59},
    {113, 5, 8, 9, 7},
    {113, 5, 6, 9, 6},
    {119, 119, 120, 2, 1},
    {119, 0, 1, 1, 1},
    {119, 7, 65535, 65535, 1},
    {0, 0, 65535, 65535, 120},
    {0, 0, 256, 257, 120},
    {5, 5, 300, 256, 115},
    {5, 2, 65535, 1, 1},
    {0, 0, 0, 0, 0},
    {60, 60, 0, 0, 0},
    {120, 0, 0, 0, 0},
    {120, 0, 0, 1, 0},
    {120, 120, 0, 65535, 0},
    {120, 7, 120, 120, 0},
    {120, 120, 65535, 65535, 0},
    {119, 0, 65535, 0, 0},
};

static void test_granted(void)
{
    for (size_t n = 0; n < sizeof grants / sizeof *grants; n++) {
        start();
        for (uint32_t k = 0; k < HUBQR_SECTORS; k++) {
            place(k, grants[n].turn, grants[n].made, grants[n].left);
            run("what is granted", k, grants[n].request, grants[n].granted);
        }
    }
}

/* The work of a sector that was never loaded counts as done: nothing runs, and Fetch takes the words that its area has. */
static void test_never_loaded(void)
{
    static const uint8_t zeros[HUBQR_RESULT_RECORD_BYTES] = {HUBQR_KIND_RESULT};
    start();
    begin_shared("a round for sector 4", 4, 120);
    load("a matrix for sector 4", 4, 4);
    run("Run of sector 4", 4, 120, 120);
    for (uint32_t k = 0; k < HUBQR_SECTORS; k++) {
        if (k == 4) {
            continue;
        }
        run("Run of a sector that was never loaded", k, 65535, 0);
        memset(areas[k], 0, sizeof areas[k]);
        memset(alone[k], 0, sizeof alone[k]);
        fetch("Fetch of zeros for a sector that was never loaded", k, zeros);
        heard_is("nothing is heard in it", k, 0);
        CHECK("its job stays", is_job(desk.jobs[k], 120, 0));
    }
    fetch_whole("sector 4 is not disturbed", 4, 4);
}

/* Shares of 120 in total and less, at every place, on a desk that has used up a part of its counts. */
static void test_set_shares(void)
{
    static const struct hubqr_shares shares[] = {
        {{0}},
        {{15, 15, 15, 15, 15, 15, 15, 15}},
        {{15, 15, 15, 15, 15, 15, 15, 14}},
        {{1, 2, 3, 4, 5, 6, 7, 92}},
        {{60, 0, 0, 0, 0, 0, 0, 60}},
        {{0, 119, 0, 0, 0, 0, 1, 0}},
    };
    start();
    load("a matrix for sector 0", 0, 0);
    run("a part of a count", 0, 9, 9);
    for (size_t n = 0; n < sizeof shares / sizeof *shares; n++) {
        set_shares("shares of 120 or less", shares[n]);
        set_shares("the same again", shares[n]);
        begin("they are left when a round begins");
        set_shares("others, which are not left", shares[0]);
    }
    for (uint32_t k = 0; k < HUBQR_SECTORS; k++) {
        for (uint16_t share = 0; share <= HUBQR_ROUND_TURNS; share++) {
            begin_shared("two shares of 120 in total", k, share);
        }
    }
}

/*
 * Any bytes are a desk. Those of one sector are of no concern to the others. Shares of any size are left when a round begins,
 * whatever they make in total, until others are set. A job above all turns counts as finished, so that a hand-in is loaded.
 */
static void test_made_up(void)
{
    static const uint16_t left[] = {1, 2, 121, 65535};
    for (size_t n = 0; n < sizeof left / sizeof *left; n++) {
        start();
        memset(desk.jobs, 0xff, sizeof desk.jobs);
        memset(desk.heard, 0xc3, sizeof desk.heard);
        place(2, 121, 122, left[n]);
        place(6, 118, 1, left[n]);
        heard_is("a heard byte that was made up", 2, 0xc3);
        run("a job that was made up", 6, 65535, left[n] < 2 ? left[n] : 2);
        load("a matrix in place of a job that is none", 2, 2);
        memset(desk.shares, 0xff, sizeof desk.shares);
        desk.shares[2] = left[n];
        begin("a round with shares that were made up");
        run("a sector that is in order again", 2, 65535, left[n] < 120 ? left[n] : 120);
        begin_shared("a round with shares that were set", 2, 120);
        run("what its job has left", 2, 65535, left[n] < 120 ? (uint16_t)(120 - left[n]) : 0);
        fetch_whole("its result", 2, 2);
        load("a matrix in place of the largest numbers", 7, 7);
    }
}

void test_desk(void)
{
    make_records();
    test_new();
    test_first_shares();
    test_uneven_shares();
    test_rounds_of_a_share();
    test_granted();
    test_never_loaded();
    test_set_shares();
    test_made_up();
}
