/*
 * The desk: refused calls, by value and by pointer. Each number of each call, the order of the tests, null with length 0, that
 * the desk comes back as it was handed over, with 0 in all other fields, and that nothing lent is changed. Whoever may not make
 * a call is refused with 15 ahead of every other number.
 */
#include "refusals.h"

#include <string.h>

static uint8_t matrix[HUBQR_MATRIX_RECORD_BYTES + 1];
static uint8_t hum[HUBQR_MATRIX_RECORD_BYTES + 1];
static uint8_t result[HUBQR_RESULT_RECORD_BYTES] = {HUBQR_KIND_RESULT};

/*
 * A desk whose sectors differ, with the job of one and what it has left as they are handed. All others have turns left. A matrix
 * waits for some, by numbers that mean the same.
 */
static struct hubqr_desk desk_of(const struct handed *h, uint32_t sector)
{
    static const uint8_t waits[HUBQR_SECTORS] = {0, 1, 2, 255, 1, 0, 128, 1};
    struct hubqr_desk desk;
    for (uint32_t k = 0; k < HUBQR_SECTORS; k++) {
        desk.jobs[k] = (struct hubqr_job){10 * k, k};
        desk.heard[k] = (uint8_t)(0xf0 + k);
        desk.shares[k] = (uint16_t)(11 + k);
        desk.left[k] = (uint16_t)(65535 - k);
        desk.waits[k] = waits[k];
        memcpy(desk.records + HUBQR_MATRIX_RECORD_BYTES * k, matrix, HUBQR_MATRIX_RECORD_BYTES);
        desk.records[HUBQR_MATRIX_RECORD_BYTES * (k + 1) - 1] = (uint8_t)k;
    }
    desk.jobs[sector] = h->job;
    desk.left[sector] = h->left;
    return desk;
}

/*
 * Makes the calls of a table by all callers for each sector, on the area and buffer as they stand, and then for those that are
 * none, for which those who may make the call are refused first. A row for which no sector refuses them has number 0.
 */
static void refuse_all(call *refuse, uint32_t role, const struct handed *table, size_t count)
{
    for (size_t n = 0; n < count; n++) {
        remember();
        for (uint32_t k = 0; k < HUBQR_SECTORS; k++) {
            struct hubqr_desk desk = desk_of(&table[n], k);
            refuse_callers(refuse, role, &table[n], &desk, k, table[n].number);
        }
        for (int k = 0; k < NO_SECTORS; k++) {
            struct hubqr_desk desk = desk_of(&table[n], no_sectors[k] % HUBQR_SECTORS);
            refuse_callers(refuse, role, &table[n], &desk, no_sectors[k], HUBQR_NO_SUCH_SECTOR);
        }
        CHECK(table[n].what, unchanged());
    }
}

#define REFUSE_ALL(call, role, table) refuse_all(call, role, table, sizeof(table) / sizeof *(table))

static void test_hand_in_refused(void)
{
    static const struct handed table[] = {
        {"Hand-in", matrix, 257, area, 512, NULL, 0, {7, 5}, 9, 0, HUBQR_ACCEPTED},
        {"Hand-in of a null record", NULL, 0, area, 512, NULL, 0, {7, 5}, 9, 0, HUBQR_WRONG_KIND},
        {"Hand-in of an empty record", matrix, 0, area, 512, NULL, 0, {0, 0}, 0, 0, HUBQR_WRONG_KIND},
        {"Hand-in of a result record", result, 2049, area, 512, NULL, 0, {5, 6}, 120, 0, HUBQR_WRONG_KIND},
        {"Hand-in of nothing with nothing", NULL, 0, NULL, 0, NULL, 0, {120, 0}, 120, 0, HUBQR_WRONG_KIND},
        {"Hand-in of 256 bytes", matrix, 256, area, 512, NULL, 0, {7, 5}, 9, 0, HUBQR_WRONG_LENGTH},
        {"Hand-in of 258 bytes", matrix, 258, area, 512, NULL, 0, {120, 120}, 0, 0, HUBQR_WRONG_LENGTH},
        {"Hand-in of 256 bytes of a hum with 511 words", hum, 256, area, 511, NULL, 0, {5, 6}, 0, 0, HUBQR_WRONG_LENGTH},
        {"Hand-in with 511 words", matrix, 257, area, 511, NULL, 0, {7, 5}, 9, 0, HUBQR_AREA_TOO_SHORT},
        {"Hand-in with a null area", matrix, 257, NULL, 0, NULL, 0, {120, 0}, 120, 0, HUBQR_AREA_TOO_SHORT},
        {"Hand-in of a hum with 511 words", hum, 257, area, 511, NULL, 0, {121, 0}, 0, 0, HUBQR_AREA_TOO_SHORT},
        {"Hand-in of a hum", hum, 257, area, 512, NULL, 0, {7, 5}, 9, 0, HUBQR_NONE_HEARD},
        {"Hand-in of a hum for a finished job", hum, 257, area, 512, NULL, 0, {120, 120}, 0, 0, HUBQR_NONE_HEARD},
        {"Hand-in of a hum behind a job that is none", hum, 257, area, 512, NULL, 0, {5, 6}, 0, 0, HUBQR_NONE_HEARD},
    };
    scribble();
    REFUSE_ALL(refuse_hand_in, HUBQR_OPERATOR, table);
}

static void test_run(void)
{
    static const struct handed table[] = {
        {"Run", NULL, 0, area, 512, NULL, 0, {7, 5}, 9, 1, HUBQR_ACCEPTED},
        {"Run of request 0", NULL, 0, area, 512, NULL, 0, {7, 5}, 0, 0, HUBQR_ACCEPTED},
        {"Run on 511 words", NULL, 0, area, 511, NULL, 0, {7, 5}, 9, 1, HUBQR_AREA_TOO_SHORT},
        {"Run on a null area", NULL, 0, NULL, 0, NULL, 0, {0, 0}, 120, 0, HUBQR_AREA_TOO_SHORT},
        {"Run of nothing loaded on 511 words", NULL, 0, area, 511, NULL, 0, {120, 0}, 120, 65535, HUBQR_AREA_TOO_SHORT},
        {"Run of job (5, 6) on 511 words", NULL, 0, area, 511, NULL, 0, {5, 6}, 0, 1, HUBQR_AREA_TOO_SHORT},
        {"Run on 511 words, none left", NULL, 0, area, 511, NULL, 0, {7, 5}, 0, 1, HUBQR_AREA_TOO_SHORT},
        {"Run of job (5, 6)", NULL, 0, area, 512, NULL, 0, {5, 6}, 9, 1, HUBQR_NO_SUCH_JOB},
        {"Run of job (5, 6), request 0", NULL, 0, area, 512, NULL, 0, {5, 6}, 9, 0, HUBQR_NO_SUCH_JOB},
        {"Run of job (5, 6), none left", NULL, 0, area, 512, NULL, 0, {5, 6}, 0, 1, HUBQR_NO_SUCH_JOB},
        {"Run of job (0, 1), none left", NULL, 0, area, 512, NULL, 0, {0, 1}, 0, 65535, HUBQR_NO_SUCH_JOB},
        {"Run of job (120, 121)", NULL, 0, area, 512, NULL, 0, {120, 121}, 65535, 1, HUBQR_NO_SUCH_JOB},
        {"Run of job (121, 0)", NULL, 0, area, 512, NULL, 0, {121, 0}, 120, 65535, HUBQR_NO_SUCH_JOB},
        {"Run of the largest numbers", NULL, 0, area, 512, NULL, 0, {UINT32_MAX, UINT32_MAX}, 0, 1, HUBQR_NO_SUCH_JOB},
        {"Run, none left", NULL, 0, area, 512, NULL, 0, {7, 5}, 0, 1, HUBQR_COUNT_USED_UP},
        {"Run of all turns, none left", NULL, 0, area, 512, NULL, 0, {0, 0}, 0, 65535, HUBQR_COUNT_USED_UP},
        {"Run of the last turn, none left", NULL, 0, area, 512, NULL, 0, {119, 119}, 0, 1, HUBQR_COUNT_USED_UP},
        {"Run of 256 turns, none left", NULL, 0, area, 512, NULL, 0, {119, 0}, 0, 256, HUBQR_COUNT_USED_UP},
    };
    scribble();
    REFUSE_ALL(refuse_run, HUBQR_OPERATOR, table);
}

static void test_fetch(void)
{
    static const struct handed table[] = {
        {"Fetch from 511 words", NULL, 0, area, 511, buffer, 2049, {120, 0}, 120, 0, HUBQR_AREA_TOO_SHORT},
        {"Fetch from a null area", NULL, 0, NULL, 0, buffer, 2049, {120, 120}, 0, 0, HUBQR_AREA_TOO_SHORT},
        {"Fetch of job (5, 6) from 511 words", NULL, 0, area, 511, NULL, 0, {5, 6}, 9, 0, HUBQR_AREA_TOO_SHORT},
        {"Fetch of job (5, 6)", NULL, 0, area, 512, buffer, 2049, {5, 6}, 0, 0, HUBQR_NO_SUCH_JOB},
        {"Fetch of job (120, 121) into 2,048 bytes", NULL, 0, area, 512, buffer, 2048, {120, 121}, 9, 0, HUBQR_NO_SUCH_JOB},
        {"Fetch of job (121, 0)", NULL, 0, area, 512, buffer, 2049, {121, 0}, 65535, 0, HUBQR_NO_SUCH_JOB},
        {"Fetch of job (0, 0) into a null buffer", NULL, 0, area, 512, NULL, 0, {0, 0}, 0, 0, HUBQR_UNFINISHED},
        {"Fetch of job (119, 119)", NULL, 0, area, 512, buffer, 2049, {119, 119}, 120, 0, HUBQR_UNFINISHED},
        {"Fetch into 2,048 bytes", NULL, 0, area, 512, buffer, 2048, {120, 0}, 120, 0, HUBQR_BUFFER_TOO_SHORT},
        {"Fetch into a null buffer", NULL, 0, area, 512, NULL, 0, {120, 120}, 0, 0, HUBQR_BUFFER_TOO_SHORT},
        {"Fetch of words that are no R", NULL, 0, area, 512, buffer, 2049, {120, 0}, 120, 0, HUBQR_NOT_TRIANGULAR},
        {"Fetch of words that are no R, all made", NULL, 0, area, 512, buffer, 2049, {120, 120}, 0, 0, HUBQR_NOT_TRIANGULAR},
    };
    static const struct handed accepted = {"Fetch", NULL, 0, area, 512, buffer, 2049, {120, 0}, 120, 0, HUBQR_ACCEPTED};
    scribble();
    REFUSE_ALL(refuse_fetch, HUBQR_FITTER, table);
    memset(area, 0, sizeof area);
    refuse_all(refuse_fetch, HUBQR_FITTER, &accepted, 1);
}

static void test_heard_byte(void)
{
    static const struct handed table[] = {
        {"the heard byte of no sector", NULL, 0, NULL, 0, NULL, 0, {7, 5}, 9, 0, HUBQR_ACCEPTED},
        {"the heard byte of no sector, job (5, 6)", NULL, 0, NULL, 0, NULL, 0, {5, 6}, 0, 0, HUBQR_ACCEPTED},
    };
    REFUSE_ALL(refuse_heard, HUBQR_VIEWER, table);
}

/* Shares that must be refused, at a new desk, at one whose sectors differ, and at one that has above 120 itself. */
static void refuse_at_desks(const char *what, struct hubqr_shares shares)
{
    struct hubqr_desk desks[3] = {hubqr_desk_new(), desk_of(&(struct handed){0}, 3)};
    memset(&desks[2], 0xff, sizeof desks[2]);
    for (size_t n = 0; n < sizeof desks / sizeof *desks; n++) {
        refuse_shares(what, &desks[n], shares, HUBQR_SHARES_EXCEED_ROUND);
    }
}

/* Totals just above 120 and far above it. Among them are some that 8 or 16 bits would cut to 120 or less. */
static void test_shares(void)
{
    static const struct hubqr_shares table[] = {
        {{15, 15, 15, 15, 15, 15, 15, 16}},
        {{16, 15, 15, 15, 15, 15, 15, 15}},
        {{1, 2, 3, 4, 5, 6, 7, 93}},
        {{60, 0, 0, 0, 0, 0, 0, 61}},
        {{0, 0, 0, 120, 1, 0, 0, 0}},
        {{32, 32, 32, 32, 32, 32, 32, 32}},
        {{128, 0, 0, 0, 0, 128, 0, 0}},
        {{0, 65535, 0, 0, 0, 0, 1, 0}},
        {{0, 0, 32768, 0, 0, 0, 0, 32768}},
        {{65535, 121, 0, 0, 0, 0, 0, 0}},
        {{8192, 8192, 8192, 8192, 8192, 8192, 8192, 8192}},
        {{8207, 8207, 8207, 8207, 8207, 8207, 8207, 8207}},
        {{65535, 65535, 65535, 65535, 65535, 65535, 65535, 65535}},
    };
    static const uint16_t single[] = {121, 255, 256, 376, 32767, 32768, 65416, 65535};
    for (size_t n = 0; n < sizeof table / sizeof *table; n++) {
        refuse_at_desks("shares above 120 in total", table[n]);
    }
    for (int k = 0; k < HUBQR_SECTORS; k++) {
        for (size_t n = 0; n < sizeof single / sizeof *single; n++) {
            struct hubqr_shares shares = {{0}};
            shares.shares[k] = single[n];
            refuse_at_desks("one share above 120", shares);
        }
        for (uint16_t share = 1; share <= HUBQR_ROUND_TURNS; share++) {
            struct hubqr_shares shares = {{0}};
            shares.shares[k] = share;
            shares.shares[(k + 5) % HUBQR_SECTORS] = (uint16_t)(121 - share);
            refuse_at_desks("two shares of 121 in total", shares);
        }
    }
}

void test_desk_refused(void)
{
    make_matrix(matrix);
    make_equal(hum, 2);
    test_hand_in_refused();
    test_run();
    test_fetch();
    test_heard_byte();
    test_shares();
}
