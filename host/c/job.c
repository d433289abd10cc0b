/* The job: a clear turn is skipped and counts in the turn number alone, any other is made and counts in both numbers. */
#include "check.h"

#include <string.h>

static uint8_t record[HUBQR_MATRIX_RECORD_BYTES];

/* A matrix without pattern, of whose turns none is clear. */
static void make_full(void)
{
    record[0] = HUBQR_KIND_MATRIX;
    for (int n = 0; n < 64; n++) {
        int real = (7919 * n * n + 123 * n + 7) % 65536 - 32768;
        int imaginary = (4447 * n * n * n + 5 * n + 77) % 65536 - 32768;
        set_element(record, n / 8, n % 8, (int16_t)real, (int16_t)imaginary);
    }
}

/* The same with nothing in the columns of antennas 4 to 7. */
static void make_half_empty(void)
{
    make_full();
    for (int n = 0; n < 64; n++) {
        if (n % 8 >= 4) {
            set_element(record, n / 8, n % 8, 0, 0);
        }
    }
}

/* Loads the record. Returns the job. */
static struct hubqr_job loaded(void)
{
    scribble();
    remember();
    struct hubqr_load_reply reply = hubqr_load(record, sizeof record, area, AREA_LENT);
    CHECK("Load answers the job (0, 0)", reply.number == HUBQR_ACCEPTED && is_job(reply.job, 0, 0));
    return reply.job;
}

/* Goes on by `count` turns, of which so many are made. Returns the job. */
static struct hubqr_job run_on(const char *what, struct hubqr_job job, uint32_t count, uint32_t made)
{
    struct hubqr_run_reply ran = hubqr_run(job, (uint16_t)count, area, AREA_LENT);
    CHECK(what, ran.number == HUBQR_ACCEPTED && ran.count == count);
    CHECK(what, is_job(ran.job, job.turn + count, job.made + made));
    return ran.job;
}

/* The last turn, of column 14 and rows 14 and 15, after any count of turns made. A clear one leaves all words as they are. */
static void last_turn_costs(const char *what, int32_t upper, int32_t lower, uint32_t made)
{
    static const uint32_t before[] = {0, 1, 60, 118, 119};
    for (size_t k = 0; k < sizeof before / sizeof *before; k++) {
        struct hubqr_job job = {119, before[k]};
        scribble();
        area[HUBQR_AREA_COLUMNS * 14 + 14] = upper;
        area[HUBQR_AREA_COLUMNS * 15 + 14] = lower;
        remember();
        run_on(what, job, 1, made);
        CHECK(what, unchanged() == (made == 0));
    }
}

static void test_clear_turns(void)
{
    last_turn_costs("leading pair (0, 0)", 0, 0, 0);
    last_turn_costs("leading pair (1, 0)", 1, 0, 0);
    last_turn_costs("leading pair (the largest, 0)", INT32_MAX, 0, 0);
    last_turn_costs("leading pair (-1, 0)", -1, 0, 1);
    last_turn_costs("leading pair (the lowest, 0)", INT32_MIN, 0, 1);
    last_turn_costs("leading pair (0, 1)", 0, 1, 1);
    last_turn_costs("leading pair (0, -1)", 0, -1, 1);
    last_turn_costs("leading pair (1, 1)", 1, 1, 1);
}

/* One turn after the other is made, and then no turn of what they leave: R is clear. */
static void test_all_made(void)
{
    make_full();
    struct hubqr_job job = loaded();
    while (job.turn < HUBQR_TURNS) {
        job = run_on("Run of one turn of a full matrix", job, 1, 1);
    }
    CHECK("a full matrix costs all 120 turns", is_job(job, 120, 120));
    run_on("Run of a full matrix", loaded(), 120, 120);
    remember();
    run_on("Run of what is finished", (struct hubqr_job){0, 0}, 120, 0);
    CHECK("Run of what is finished changes nothing", unchanged());
}

/*
 * Made real, the matrix has numbers in columns 0 to 3 and 8 to 11 alone. Column j of these costs 15 - j turns, 76 in all, and the
 * others cost none.
 */
static void test_half_empty(void)
{
    make_half_empty();
    struct hubqr_job job = run_on("Run of columns 0 to 3", loaded(), 54, 54);
    remember();
    job = run_on("Run within columns that are clear", job, 7, 0);
    CHECK("Run of clear turns changes nothing", unchanged());
    run_on("Run of the other columns", job, 59, 22);
    run_on("Run of a half-empty matrix", loaded(), 120, 76);

    job = loaded();
    while (job.turn < HUBQR_TURNS) {
        struct hubqr_run_reply ran = hubqr_run(job, 7, area, AREA_LENT);
        CHECK("Run of 7 turns", ran.number == HUBQR_ACCEPTED && ran.count == (job.turn < 119 ? 7 : 1));
        job = ran.job;
    }
    CHECK("instalments cost as much", is_job(job, 120, 76));
}

/* A record with 268427264, which is 32767 times 2^13, on R's diagonal, one on Q's, and 0 elsewhere. */
static void make_due(uint8_t due[HUBQR_RESULT_RECORD_BYTES])
{
    memset(due, 0, HUBQR_RESULT_RECORD_BYTES);
    due[0] = HUBQR_KIND_RESULT;
    for (int k = 0; k < 16; k++) {
        memcpy(due + 1 + 4 * 17 * k, (const uint8_t[]){0x0f, 0xff, 0xe0, 0x00}, 4);
        due[1 + 4 * (256 + 17 * k)] = 0x40;
    }
}

/* A diagonal of (32767, 0) is R already, so that no turn is made. Any job of finished work fetches the same record. */
static void test_diagonal(void)
{
    static const struct hubqr_job finished[] = {{120, 0}, {120, 1}, {120, 119}, {120, 120}};
    uint8_t due[HUBQR_RESULT_RECORD_BYTES];
    make_due(due);
    make_equal(record, 0);
    for (int k = 0; k < HUBQR_ANTENNAS; k++) {
        set_element(record, k, k, 32767, 0);
    }
    CHECK("no turn of a diagonal is made", is_job(run_on("Run of a diagonal", loaded(), 120, 0), 120, 0));
    for (size_t k = 0; k < sizeof finished / sizeof *finished; k++) {
        memset(buffer, 0xa5, HUBQR_RESULT_RECORD_BYTES);
        CHECK("Fetch of a diagonal", hubqr_fetch(finished[k], area, AREA_LENT, buffer, BUFFER_LENT) == HUBQR_ACCEPTED);
        CHECK("Fetch writes the diagonal, and Q one", memcmp(buffer, due, sizeof due) == 0);
    }
    scribble();
    struct hubqr_whole_reply factored = hubqr_whole(record, sizeof record, area, AREA_LENT, buffer, BUFFER_LENT);
    CHECK("Whole of a diagonal", factored.number == HUBQR_ACCEPTED && factored.heard == 0xff);
    CHECK("Whole of a diagonal", factored.clamps_r == 0 && factored.clamps_q == 0);
    CHECK("Whole writes the diagonal, and Q one", memcmp(buffer, due, sizeof due) == 0);
    CHECK("Run, Fetch and Whole leave what is behind", guards_unchanged());
}

/* By pointer the job moves on in place, as by value, and stays where Run is refused. */
static void test_by_pointer(void)
{
    make_half_empty();
    struct hubqr_job by_value = loaded(), job = by_value;
    while (job.turn < HUBQR_TURNS) {
        struct hubqr_job before = job;
        struct hubqr_run_reply ran = hubqr_run_at(&job, 50, area, AREA_LENT);
        CHECK("Run by pointer", ran.number == HUBQR_ACCEPTED && ran.count == job.turn - before.turn);
        CHECK("Run by pointer moves the job", is_job(ran.job, job.turn, job.made) && job.made >= before.made);
    }
    CHECK("Run by pointer costs as much", is_job(job, 120, 76) && is_job(by_value, 0, 0));
    job = (struct hubqr_job){5, 6};
    remember();
    struct hubqr_run_reply ran = hubqr_run_at(&job, 7, area, AREA_LENT);
    CHECK("Run by pointer of no job", ran.number == HUBQR_NO_SUCH_JOB && is_job(job, 5, 6) && unchanged());
}

void test_job(void)
{
    test_clear_turns();
    test_all_made();
    test_half_empty();
    test_diagonal();
    test_by_pointer();
}
