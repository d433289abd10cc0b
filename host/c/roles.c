/*
 * The desk: who may make which call. All callers, the three roles and numbers of no role, try every call between the operator's,
 * at every stage of the work, and nothing comes of what is not theirs. A fitter's Fetch changes nothing but the buffer. What a
 * viewer and a fitter are answered goes by nothing that they may not see.
 */
#include "refusals.h"
#include "sectors.h"

#include <stdlib.h>
#include <string.h>

/* Shares that the operator could set, and shares that nobody could. */
static const struct hubqr_shares shares = {{0, 1, 2, 3, 4, 5, 6, 99}}, too_many = {{1, 1, 2, 3, 4, 5, 6, 99}};

/* All callers are refused with 15 where they may not make a call for this sector of this desk, with this handed over. */
static void turn_away(const struct handed *h, const struct hubqr_desk *at, uint32_t sector)
{
    refuse_callers(refuse_hand_in, HUBQR_OPERATOR, h, at, sector, HUBQR_ACCEPTED);
    refuse_callers(refuse_run, HUBQR_OPERATOR, h, at, sector, HUBQR_ACCEPTED);
    refuse_callers(refuse_fetch, HUBQR_FITTER, h, at, sector, HUBQR_ACCEPTED);
    refuse_callers(refuse_heard, HUBQR_VIEWER, h, at, sector, HUBQR_ACCEPTED);
}

/*
 * All others try to do what the operator could do for this sector, with what it would be refused with, and with nothing at all,
 * for no sector as well. The desk, the sector's area and the buffer stay as they are.
 */
static void others_try(const char *what, uint32_t sector)
{
    const struct handed table[] = {
        {what, records[4], 257, areas[sector], AREA_LENT, buffer, BUFFER_LENT, {0, 0}, 0, 15, 0},
        {what, records[4], 256, areas[sector], 511, buffer, 2048, {0, 0}, 0, 65535, 0},
        {what, NULL, 0, NULL, 0, NULL, 0, {0, 0}, 0, 0, 0},
    };
    struct hubqr_desk kept = desk;
    int32_t words[AREA_LENT];
    memcpy(words, areas[sector], sizeof words);
    scribble();
    remember();
    for (size_t n = 0; n < sizeof table / sizeof *table; n++) {
        turn_away(&table[n], &desk, sector);
        turn_away(&table[n], &desk, HUBQR_SECTORS + sector);
        turn_away(&table[n], &desk, 65536 + sector);
        turn_away(&table[n], &desk, UINT32_MAX);
    }
    refuse_begin(what, &desk);
    refuse_shares(what, &desk, shares, HUBQR_ACCEPTED);
    refuse_shares(what, &desk, too_many, HUBQR_SHARES_EXCEED_ROUND);
    CHECK(what, same_desk(&desk, &kept) && memcmp(areas[sector], words, sizeof words) == 0 && unchanged());
}

/* Between all calls of the operator, from a new desk to the result of a matrix that waited, for each sector. */
static void test_between(void)
{
    for (uint32_t k = 0; k < HUBQR_SECTORS; k++) {
        uint32_t other = (k + 3) % HUBQR_SECTORS;
        start();
        others_try("a new desk", k);
        begin_shared("a round for the sector", k, 100);
        others_try("a sector that was never loaded", k);
        load("the first matrix", k, 1);
        others_try("the first is loaded", k);
        run("a part of its turns", k, 60, 60);
        let_wait("an early matrix", k, 2);
        others_try("one waits behind an unfinished job", k);
        others_try("the same, for another sector", other);
        run("all that is left", k, 65535, 40);
        others_try("the count is used up", k);
        begin_shared("the next round", k, 120);
        run("the first to its end", k, 65535, 20);
        others_try("one waits behind a finished job", k);
        fetch_whole_next("the first result", k, 1, 2);
        others_try("the second is brought in", k);
        run("the second", k, 100, 100);
        begin("the last round");
        run("the second to its end", k, 20, 20);
        others_try("a finished job, and none waits", k);
        fetch_whole("the second result", k, 2);
        others_try("it is fetched", k);
    }
}

/*
 * What waits goes on waiting whenever a fitter fetches, who has the same record each time, whatever the operator does to the
 * sector short of a Fetch. That brings in what waits, and the fitter has nothing more until it is finished.
 */
static void test_fitter(void)
{
    uint8_t first[HUBQR_RESULT_RECORD_BYTES], second[HUBQR_RESULT_RECORD_BYTES];
    whole_of("Whole", 6, first);
    whole_of("Whole", 3, second);
    for (uint32_t k = 0; k < HUBQR_SECTORS; k++) {
        const struct handed h = {"unfinished", NULL, 0, areas[k], AREA_LENT, buffer, BUFFER_LENT, {0, 0}, 0, 0, 0};
        start();
        begin_shared("a round for the sector", k, 120);
        load("a matrix", k, 6);
        refuse_fetch(HUBQR_FITTER, &h, &desk, k, HUBQR_UNFINISHED);
        run("a part of its turns", k, 119, 119);
        let_wait("the next matrix", k, 5);
        refuse_fetch(HUBQR_FITTER, &h, &desk, k, HUBQR_UNFINISHED);
        run("the last turn", k, 1, 1);
        fetch_as_fitter("the result, with one waiting", k, first);
        fetch_as_fitter("the same result again", k, first);
        let_wait("another one in its place", k, 3);
        fetch_as_fitter("and behind another one", k, first);
        run("nothing is left to run", k, 65535, 0);
        begin("a round, which the sector has for what waits");
        fetch_as_fitter("and in the next round", k, first);
        heard_is("the heard byte is still that of the first", k, heard_in(6));
        fetch_whole_next("the operator's Fetch brings in", k, 6, 3);
        refuse_fetch(HUBQR_FITTER, &h, &desk, k, HUBQR_UNFINISHED);
        run("all its turns", k, 120, 120);
        fetch_as_fitter("the second result", k, second);
        fetch_as_fitter("and again", k, second);
    }
}

/* All bytes of a desk but its heard bytes are this one. */
static struct hubqr_desk filled(uint8_t byte)
{
    struct hubqr_desk made_up;
    memset(&made_up, byte, sizeof made_up);
    for (int k = 0; k < HUBQR_SECTORS; k++) {
        made_up.heard[k] = (uint8_t)(37 * k + 1);
    }
    return made_up;
}

/* Whatever else a desk holds, a viewer, as everybody who has a role, is answered the sector's heard byte. */
static void test_heard_byte(void)
{
    for (int byte = 0; byte < 256; byte++) {
        desk = filled((uint8_t)byte);
        for (uint32_t k = 0; k < HUBQR_SECTORS; k++) {
            heard_is("the heard byte of a desk that was made up", k, (uint8_t)(37 * k + 1));
            desk.heard[k] = (uint8_t)byte;
            heard_is("each heard byte", k, (uint8_t)byte);
        }
    }
}

/*
 * A fitter's Fetch goes by the area, whatever shares, counts and matrices the desk holds, and however many turns were made. What
 * is refused with 15 is refused at such a desk, too.
 */
static void test_made_up(void)
{
    static const uint8_t bytes[] = {0, 1, 2, 120, 128, 255};
    static const uint32_t made[] = {0, 1, 60, 119, 120};
    uint8_t due[HUBQR_RESULT_RECORD_BYTES];
    whole_of("Whole", 7, due);
    for (size_t n = 0; n < sizeof bytes; n++) {
        for (uint32_t k = 0; k < HUBQR_SECTORS; k++) {
            start();
            CHECK("a result", hubqr_read(due, sizeof due, areas[k], AREA_LENT).number == HUBQR_ACCEPTED);
            desk = filled(bytes[n]);
            others_try("a desk that was made up", k);
            desk.jobs[k] = (struct hubqr_job){5, 6};
            others_try("a job that is none", k);
            for (size_t m = 0; m < sizeof made / sizeof *made; m++) {
                desk.jobs[k] = (struct hubqr_job){120, made[m]};
                fetch_as_fitter("the words of the area", k, due);
            }
        }
    }
}

/* Blocks of exactly the lengths that are told, where valgrind sees whether a call that is refused reads or writes behind them. */
static void test_exact_blocks(void)
{
    for (size_t length = 1; length <= 257; length += 256) {
        uint8_t *record = malloc(length), *bytes = malloc(8 * length - 7);
        int32_t *words = malloc(2 * length * sizeof *words);
        struct hubqr_desk *kept = malloc(sizeof *kept);
        const struct handed h = {"exact blocks", record, length, words, 2 * length, bytes, 8 * length - 7, {0, 0}, 0, 15, 0};
        CHECK("memory for exact sizes", record && bytes && words && kept);
        memset(record, HUBQR_KIND_MATRIX, length);
        *kept = hubqr_desk_new();
        turn_away(&h, kept, 7);
        turn_away(&h, kept, 8);
        free(record);
        free(bytes);
        free(words);
        free(kept);
    }
}

void test_roles(void)
{
    make_records();
    test_between();
    test_fitter();
    test_heard_byte();
    test_made_up();
    test_exact_blocks();
}
