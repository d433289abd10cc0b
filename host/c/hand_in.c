/* The desk: matrices that are handed in before the result of the one before them is fetched, and how they are brought in. */
#include "sectors.h"

#include <stdlib.h>
#include <string.h>

/* A round in which a sector has all 120 turns. */
static void begin_for(uint32_t sector)
{
    begin_shared("a round for one sector", sector, HUBQR_ROUND_TURNS);
}

/* Sector k works a matrix of its own, and then the next one. */
static uint32_t after(uint32_t k)
{
    return (k + 1) % HUBQR_SECTORS;
}

/* A matrix that is handed in at each turn number waits until the first is fetched; at turn number 120 it is loaded over it. */
static void test_every_stage(void)
{
    for (uint16_t turn = 0; turn <= HUBQR_TURNS; turn++) {
        uint32_t k = turn % HUBQR_SECTORS;
        start();
        begin_for(k);
        load("the first matrix", k, k);
        run("turns before the hand-in", k, turn, turn);
        if (turn < HUBQR_TURNS) {
            let_wait("a matrix while the job is unfinished", k, after(k));
            run("the other turns of the first", k, HUBQR_TURNS, (uint16_t)(HUBQR_TURNS - turn));
            fetch_whole_next("the first result", k, k, after(k));
        } else {
            load("a matrix when the job is finished", k, after(k));
        }
        CHECK("a load does not refill the count", desk.left[k] == 0);
        begin_for(k);
        run("all turns of the second", k, HUBQR_TURNS, HUBQR_TURNS);
        fetch_whole("the second result", k, after(k));
        fetch_whole("and again", k, after(k));
    }
}

/* Of the matrices that are handed in while a job is unfinished, and while its result is not fetched, the last one waits. */
static void test_replaced(void)
{
    for (uint32_t k = 0; k < HUBQR_SECTORS; k++) {
        start();
        begin_for(k);
        load("the first matrix", k, k);
        let_wait("a matrix at turn number 0", k, (k + 1) % 8);
        run("half of the turns", k, 60, 60);
        let_wait("another one takes its place", k, (k + 2) % 8);
        let_wait("the same again", k, (k + 2) % 8);
        run("the other half", k, 60, 60);
        let_wait("one waits, so that another waits behind a finished job, too", k, (k + 3) % 8);
        run("nothing is left to run", k, 1, 0);
        fetch_whole_next("the result of the first, and the last one is brought in", k, k, (k + 3) % 8);
        let_wait("the next one is early again", k, (k + 4) % 8);
        begin_for(k);
        run("all turns", k, 120, 120);
        fetch_whole_next("the result of the one brought in", k, (k + 3) % 8, (k + 4) % 8);
        begin_for(k);
        run("all turns of the last", k, 120, 120);
        fetch_whole("the last result", k, (k + 4) % 8);
        load("one that is not early is loaded, and the desk has the bytes of the last that waited", k, (k + 5) % 8);
    }
}

/* With none waiting Fetch writes the same bytes until the next load, whatever is called in between. */
static void test_repeated_fetch(void)
{
    start();
    begin_for(5);
    load("a matrix for sector 5", 5, 5);
    run("all its turns", 5, 120, 120);
    fetch_whole("its result", 5, 5);
    run("a Run that has nothing left", 5, 65535, 0);
    fetch_whole("its result after a Run", 5, 5);
    begin_shared("a round for sector 4", 4, 120);
    load("a matrix for sector 4", 4, 4);
    let_wait("an early one for sector 4", 4, 3);
    run("all its turns", 4, 120, 120);
    fetch_whole_next("its result", 4, 4, 3);
    fetch_whole("that of sector 5 after the calls of another", 5, 5);
    load("the next matrix for sector 5, which is loaded", 5, 6);
    begin_for(5);
    run("all its turns", 5, 120, 120);
    fetch_whole("the next result", 5, 6);
    fetch_whole("and again", 5, 6);
}

/* A hand-in for a finished job is loaded over a result that was not fetched, and leaves the sector's count alone. */
static void test_result_not_fetched(void)
{
    start();
    begin_for(1);
    load("the first matrix", 1, 1);
    run("all turns", 1, 120, 120);
    load("the next one, before the first is fetched", 1, 7);
    CHECK("the count is not refilled", desk.left[1] == 0);
    begin_shared("a round with fewer turns", 1, 70);
    run("a part of them", 1, 20, 20);
    let_wait("an early one", 1, 2);
    CHECK("a hand-in that waits pays nothing", desk.left[1] == 50);
    begin_for(1);
    run("what the job has left", 1, 120, 100);
    fetch_whole_next("the result of the second", 1, 7, 2);
    CHECK("what is left stays when one is brought in", desk.left[1] == 20);
    run("the third goes on with it", 1, 120, 20);
}

/* A matrix waits for each sector at once, and each is brought in for its own. */
static void test_all_sectors(void)
{
    start();
    for (uint32_t k = 0; k < HUBQR_SECTORS; k++) {
        load("a matrix for each sector", k, k);
        let_wait("an early one for each", k, 7 - k);
    }
    for (int round = 0; round < 16; round++) {
        begin("each of sixteen rounds");
        for (uint32_t k = 0; k < HUBQR_SECTORS; k++) {
            run("15 turns for each sector", k, 15, 15);
        }
        for (uint32_t k = HUBQR_SECTORS; round == 7 && k-- > 0;) {
            fetch_whole_next("the first result of each, from the last sector on", k, k, 7 - k);
        }
    }
    for (uint32_t k = 0; k < HUBQR_SECTORS; k++) {
        fetch_whole("the second result of each", k, 7 - k);
    }
}

/* A hand-in of this record must be refused with this number, and a matrix that waits goes on waiting. */
static void refuse_hand_in(const char *what, uint32_t sector, const uint8_t *record, size_t length, size_t words, uint8_t number)
{
    struct hubqr_desk kept = desk;
    int32_t *lent = areas[sector];
    struct hubqr_desk_load_reply by_value = hubqr_desk_hand_in(HUBQR_OPERATOR, desk, sector, record, length, lent, words);
    CHECK(what, by_value.number == number && same_desk(&by_value.desk, &kept));
    CHECK(what, hubqr_desk_hand_in_at(HUBQR_OPERATOR, &desk, sector, record, length, lent, words).number == number);
    CHECK(what, same_desk(&desk, &kept) && memcmp(areas[sector], alone[sector], sizeof areas[sector]) == 0);
}

/* A Fetch, a fitter's and the operator's, must be refused with this number, brings nothing in and leaves area and buffer. */
static void refuse_fetch(const char *what, uint32_t sector, size_t words, size_t bytes, uint8_t number)
{
    struct hubqr_desk kept = desk;
    scribble();
    remember();
    for (uint32_t role = HUBQR_FITTER; role <= HUBQR_OPERATOR; role++) {
        struct hubqr_desk_reply by_value = hubqr_desk_fetch(role, desk, sector, areas[sector], words, buffer, bytes);
        CHECK(what, by_value.number == number && same_desk(&by_value.desk, &kept));
        CHECK(what, hubqr_desk_fetch_at(role, &desk, sector, areas[sector], words, buffer, bytes) == number);
        CHECK(what, same_desk(&desk, &kept) && memcmp(areas[sector], alone[sector], sizeof areas[sector]) == 0 && unchanged());
    }
}

/* Refused hand-ins and Fetches between the accepted ones: what waits is brought in by the first Fetch that is accepted. */
static void test_refused_between(void)
{
    uint8_t hum[HUBQR_MATRIX_RECORD_BYTES];
    make_equal(hum, HUBQR_HEARD_ABOVE);
    for (uint32_t k = 0; k < HUBQR_SECTORS; k++) {
        start();
        begin_for(k);
        refuse_hand_in("a hum for a sector never loaded", k, hum, sizeof hum, 512, HUBQR_NONE_HEARD);
        load("a good one", k, k);
        refuse_hand_in("a hum while none waits", k, hum, sizeof hum, 512, HUBQR_NONE_HEARD);
        let_wait("a good one that waits", k, after(k));
        refuse_hand_in("a hum while a good one waits", k, hum, sizeof hum, 512, HUBQR_NONE_HEARD);
        refuse_hand_in("256 bytes while one waits", k, records[k], 256, 512, HUBQR_WRONG_LENGTH);
        refuse_hand_in("nothing while one waits", k, NULL, 0, 512, HUBQR_WRONG_KIND);
        refuse_hand_in("511 words for one that would wait", k, records[k], sizeof records[k], 511, HUBQR_AREA_TOO_SHORT);
        refuse_fetch("an unfinished job, while one waits", k, 512, 2049, HUBQR_UNFINISHED);
        run("all turns", k, 120, 120);
        refuse_hand_in("a hum behind a finished job", k, hum, sizeof hum, 512, HUBQR_NONE_HEARD);
        refuse_fetch("a short buffer, while one waits", k, 512, 2048, HUBQR_BUFFER_TOO_SHORT);
        refuse_fetch("a short area, while one waits", k, 511, 2049, HUBQR_AREA_TOO_SHORT);
        fetch_whole_next("the result", k, k, after(k));
        refuse_fetch("the one brought in is unfinished", k, 512, 2049, HUBQR_UNFINISHED);
        refuse_hand_in("a hum when one was brought in", k, hum, sizeof hum, 512, HUBQR_NONE_HEARD);
    }
}

/* Each number above 0 says that a matrix waits. The calls answer 1 and 0. */
static void test_made_up_waits(void)
{
    static const uint8_t waits[] = {1, 2, 3, 127, 128, 254, 255};
    for (size_t n = 0; n < sizeof waits; n++) {
        for (uint32_t k = 0; k < HUBQR_SECTORS; k++) {
            start();
            begin_for(k);
            memset(desk.waits, waits[n], sizeof desk.waits);
            let_wait("one waits behind a job that is finished", k, k);
            desk.jobs[k] = (struct hubqr_job){60, 0};
            desk.waits[k] = waits[n];
            let_wait("or takes its place behind one that is not", k, after(k));
            desk.jobs[k] = (struct hubqr_job){120, 0};
            desk.waits[k] = waits[n];
            uint8_t zeros[HUBQR_RESULT_RECORD_BYTES] = {HUBQR_KIND_RESULT};
            memset(areas[k], 0, sizeof areas[k]);
            memset(alone[k], 0, sizeof alone[k]);
            fetch_next("what waits is brought in", k, zeros, heard_in(after(k)));
            run("and worked", k, 120, 120);
            fetch_whole("its result", k, after(k));
        }
    }
}

/* What waits is not tested when it is brought in: parts are loaded as they stand, whatever the kind byte is and who was heard. */
static void test_made_up_records(void)
{
    static const uint8_t zeros[HUBQR_RESULT_RECORD_BYTES] = {HUBQR_KIND_RESULT};
    static const int16_t parts[] = {0, 1, 16, 17, -1, 32767, -32768};
    for (size_t n = 0; n < sizeof parts / sizeof *parts; n++) {
        for (uint32_t k = 0; k < HUBQR_SECTORS; k++) {
            start();
            memset(desk.records, 0xee, sizeof desk.records);
            uint8_t *record = desk.records + HUBQR_MATRIX_RECORD_BYTES * k;
            make_equal(record, parts[n]);
            record[0] = (uint8_t)(n + 2);
            desk.waits[k] = 1;
            memset(areas[k], 0, sizeof areas[k]);
            memset(alone[k], 0, sizeof alone[k]);
            fetch_next("a record that was made up", k, zeros, parts[n] > 16 ? 0xff : 0);
        }
    }
}

/*
 * A job that is none is finished for a hand-in when its turn number is 120 or more, and unfinished otherwise. Behind the latter a
 * matrix waits until the host has put the job right. The area is a finished R of zeros then, so that Fetch passes test 8.
 */
static void test_made_up_jobs(void)
{
    static const uint8_t zeros[HUBQR_RESULT_RECORD_BYTES] = {HUBQR_KIND_RESULT};
    static const struct hubqr_job finished[] = {{120, 121}, {121, 0}, {121, 121}, {256, 0}, {376, 5}, {UINT32_MAX, UINT32_MAX}};
    static const struct hubqr_job unfinished[] = {{0, 1}, {5, 6}, {119, 120}, {60, UINT32_MAX}};
    for (size_t n = 0; n < sizeof finished / sizeof *finished; n++) {
        start();
        desk.jobs[4] = finished[n];
        load("a matrix in place of a job above all turns", 4, 4);
        desk.jobs[4] = finished[n];
        desk.waits[4] = 1;
        let_wait("a matrix behind such a job, while one waits", 4, 3);
        refuse_fetch("such a job is refused", 4, 512, 2049, HUBQR_NO_SUCH_JOB);
    }
    for (size_t n = 0; n < sizeof unfinished / sizeof *unfinished; n++) {
        start();
        desk.jobs[6] = unfinished[n];
        let_wait("a matrix behind a job that is none", 6, 6);
        refuse_fetch("it cannot be fetched", 6, 512, 2049, HUBQR_NO_SUCH_JOB);
        CHECK("nor run", hubqr_desk_run_at(HUBQR_OPERATOR, &desk, 6, 1, areas[6], AREA_LENT).number == HUBQR_NO_SUCH_JOB);
        let_wait("the next one waits, too", 6, 5);
        desk.jobs[6] = (struct hubqr_job){120, 0};
        memset(areas[6], 0, sizeof areas[6]);
        memset(alone[6], 0, sizeof alone[6]);
        fetch_next("it is brought in when the job is put right", 6, zeros, heard_in(5));
    }
}

/* Fetch into a block of exactly the needed size, which holds nothing before. */
static void fetch_exact(uint32_t role, struct hubqr_desk *kept, int32_t *words, const uint8_t due[HUBQR_RESULT_RECORD_BYTES])
{
    uint8_t *result = malloc(HUBQR_RESULT_RECORD_BYTES);
    CHECK("memory for a result", result != NULL);
    CHECK("Fetch", hubqr_desk_fetch_at(role, kept, 7, words, HUBQR_AREA_WORDS, result, HUBQR_RESULT_RECORD_BYTES) == 0);
    CHECK("same record as in longer lent memory", memcmp(result, due, HUBQR_RESULT_RECORD_BYTES) == 0);
    free(result);
}

/*
 * Blocks of exactly the needed sizes on the heap, where valgrind sees a step past their end. The record is gone before the matrix
 * is brought in, since the desk has it by value. A fitter has each result before the operator.
 */
static void test_exact_blocks(void)
{
    struct hubqr_desk *kept = malloc(sizeof *kept);
    uint8_t *record = malloc(HUBQR_MATRIX_RECORD_BYTES), due[HUBQR_RESULT_RECORD_BYTES];
    int32_t *words = malloc(HUBQR_AREA_WORDS * sizeof *words);
    uint32_t role = HUBQR_OPERATOR;
    CHECK("memory for exact sizes", kept && record && words);
    *kept = hubqr_desk_new();
    CHECK("shares", hubqr_desk_set_shares_at(role, kept, (struct hubqr_shares){{0, 0, 0, 0, 0, 0, 0, 120}}) == 0);
    for (uint32_t matrix = 7; matrix >= 6; matrix--) {
        memcpy(record, records[matrix], HUBQR_MATRIX_RECORD_BYTES);
        CHECK("hand-in",
              hubqr_desk_hand_in_at(role, kept, 7, record, HUBQR_MATRIX_RECORD_BYTES, words, HUBQR_AREA_WORDS).number == 0);
    }
    free(record);
    for (uint32_t matrix = 7; matrix >= 6; matrix--) {
        CHECK("heard", hubqr_desk_heard_at(role, kept, 7).heard == heard_in(matrix));
        CHECK("a round", hubqr_desk_begin_at(role, kept) == 0);
        CHECK("Run", hubqr_desk_run_at(role, kept, 7, 120, words, HUBQR_AREA_WORDS).count == 120);
        whole_of("Whole", matrix, due);
        fetch_exact(HUBQR_FITTER, kept, words, due);
        fetch_exact(role, kept, words, due);
    }
    free(kept);
    free(words);
}

void test_hand_in(void)
{
    make_records();
    test_every_stage();
    test_replaced();
    test_repeated_fetch();
    test_result_not_fetched();
    test_all_sectors();
    test_refused_between();
    test_made_up_waits();
    test_made_up_records();
    test_made_up_jobs();
    test_exact_blocks();
}
