#include "sectors.h"

#include <string.h>

struct hubqr_desk desk;
int32_t areas[HUBQR_SECTORS][AREA_LENT], alone[HUBQR_SECTORS][AREA_LENT];
uint8_t records[HUBQR_SECTORS][HUBQR_MATRIX_RECORD_BYTES];

void make_records(void)
{
    for (int k = 0; k < HUBQR_SECTORS; k++) {
        make_matrix(records[k]);
        for (int n = 0; n < 64; n++) {
            if (n % 8 > k) {
                set_element(records[k], n / 8, n % 8, 0, 0);
            }
        }
        for (int antenna = 0; antenna <= k; antenna++) {
            set_element(records[k], antenna, antenna, (int16_t)(17 + 100 * k), -5);
        }
    }
}

uint8_t heard_in(uint32_t matrix)
{
    return (uint8_t)((2 << matrix) - 1);
}

void start(void)
{
    desk = hubqr_desk_new();
    scribble();
    for (int k = 0; k < HUBQR_SECTORS; k++) {
        memcpy(areas[k], area, sizeof area);
        memcpy(alone[k], area, sizeof area);
    }
}

void place(uint32_t sector, uint32_t turn, uint32_t made, uint16_t left)
{
    for (int k = 0; k < HUBQR_SECTORS; k++) {
        desk.shares[k] = desk.left[k] = left == 0 ? 65535 : 0;
    }
    desk.jobs[sector] = (struct hubqr_job){turn, made};
    desk.left[sector] = left;
}

void heard_is(const char *what, uint32_t sector, uint8_t heard)
{
    struct hubqr_desk kept = desk;
    for (uint32_t role = HUBQR_VIEWER; role <= HUBQR_OPERATOR; role++) {
        struct hubqr_desk_heard_reply by_value = hubqr_desk_heard(role, desk, sector);
        struct hubqr_desk_heard_reply by_pointer = hubqr_desk_heard_at(role, &desk, sector);
        CHECK(what, by_value.number == HUBQR_ACCEPTED && by_value.heard == heard && same_desk(&by_value.desk, &kept));
        CHECK(what, by_pointer.number == HUBQR_ACCEPTED && by_pointer.heard == heard && same_desk(&by_pointer.desk, &kept));
    }
    CHECK(what, same_desk(&desk, &kept));
}

void begin(const char *what)
{
    struct hubqr_desk due = desk;
    memcpy(due.left, desk.shares, sizeof due.left);
    struct hubqr_desk_reply by_value = hubqr_desk_begin(HUBQR_OPERATOR, desk);
    CHECK(what, by_value.number == HUBQR_ACCEPTED && same_desk(&by_value.desk, &due));
    CHECK(what, hubqr_desk_begin_at(HUBQR_OPERATOR, &desk) == HUBQR_ACCEPTED && same_desk(&desk, &due));
}

void set_shares(const char *what, struct hubqr_shares shares)
{
    struct hubqr_desk due = desk;
    memcpy(due.shares, shares.shares, sizeof due.shares);
    struct hubqr_desk_reply by_value = hubqr_desk_set_shares(HUBQR_OPERATOR, desk, shares);
    CHECK(what, by_value.number == HUBQR_ACCEPTED && same_desk(&by_value.desk, &due));
    CHECK(what, hubqr_desk_set_shares_at(HUBQR_OPERATOR, &desk, shares) == HUBQR_ACCEPTED && same_desk(&desk, &due));
}

void begin_shared(const char *what, uint32_t sector, uint16_t share)
{
    struct hubqr_shares shares = {{0}};
    shares.shares[(sector + 1) % HUBQR_SECTORS] = (uint16_t)(HUBQR_ROUND_TURNS - share);
    shares.shares[sector] = share;
    set_shares(what, shares);
    begin(what);
}

/* The area that a call by value was lent, and that of the call by pointer, are what the engine alone makes of them. */
static void check_areas(const char *what, uint32_t sector)
{
    CHECK(what, memcmp(area, alone[sector], sizeof area) == 0 && memcmp(areas[sector], alone[sector], sizeof area) == 0);
}

/* A reply to a hand-in has these fields and this desk. */
static void check_reply(const char *what, struct hubqr_desk_load_reply reply, const struct hubqr_desk *due, uint32_t sector)
{
    struct hubqr_job job = due->jobs[sector];
    CHECK(what, reply.number == HUBQR_ACCEPTED && reply.heard == due->heard[sector] && is_job(reply.job, job.turn, job.made));
    CHECK(what, same_desk(&reply.desk, due));
}

/* Hands in a matrix, which makes this of the desk. */
static void hand_in(const char *what, uint32_t sector, uint32_t matrix, const struct hubqr_desk *due)
{
    const uint8_t *record = records[matrix];
    size_t bytes = sizeof records[matrix];
    memcpy(area, areas[sector], sizeof area);
    check_reply(what, hubqr_desk_hand_in(HUBQR_OPERATOR, desk, sector, record, bytes, area, AREA_LENT), due, sector);
    check_reply(what, hubqr_desk_hand_in_at(HUBQR_OPERATOR, &desk, sector, record, bytes, areas[sector], AREA_LENT), due, sector);
    CHECK(what, same_desk(&desk, due));
    check_areas(what, sector);
    heard_is(what, sector, due->heard[sector]);
}

void load(const char *what, uint32_t sector, uint32_t matrix)
{
    struct hubqr_load_reply engine = hubqr_load(records[matrix], sizeof records[matrix], alone[sector], AREA_LENT);
    CHECK(what, engine.number == HUBQR_ACCEPTED && engine.heard == heard_in(matrix));
    struct hubqr_desk due = desk;
    due.jobs[sector] = (struct hubqr_job){0, 0};
    due.heard[sector] = heard_in(matrix);
    hand_in(what, sector, matrix, &due);
}

void let_wait(const char *what, uint32_t sector, uint32_t matrix)
{
    struct hubqr_desk due = desk;
    due.waits[sector] = 1;
    memcpy(due.records + HUBQR_MATRIX_RECORD_BYTES * sector, records[matrix], HUBQR_MATRIX_RECORD_BYTES);
    hand_in(what, sector, matrix, &due);
}

/* A reply to Run has the engine's fields and this desk. */
static void check_run(const char *what, struct hubqr_desk_run_reply reply, const struct hubqr_desk *due,
                      const struct hubqr_run_reply *engine)
{
    CHECK(what, reply.number == HUBQR_ACCEPTED && reply.count == engine->count);
    CHECK(what, is_job(reply.job, engine->job.turn, engine->job.made));
    CHECK(what, reply.clamps_r == engine->clamps_r && reply.clamps_q == engine->clamps_q);
    CHECK(what, same_desk(&reply.desk, due));
}

void run(const char *what, uint32_t sector, uint16_t request, uint16_t granted)
{
    struct hubqr_run_reply engine = hubqr_run(desk.jobs[sector], granted, alone[sector], AREA_LENT);
    CHECK(what, engine.number == HUBQR_ACCEPTED && engine.count == granted);
    struct hubqr_desk due = desk;
    due.jobs[sector] = engine.job;
    due.left[sector] = (uint16_t)(due.left[sector] - granted);
    memcpy(area, areas[sector], sizeof area);
    check_run(what, hubqr_desk_run(HUBQR_OPERATOR, desk, sector, request, area, AREA_LENT), &due, &engine);
    check_run(what, hubqr_desk_run_at(HUBQR_OPERATOR, &desk, sector, request, areas[sector], AREA_LENT), &due, &engine);
    CHECK(what, same_desk(&desk, &due));
    check_areas(what, sector);
}

void whole_of(const char *what, uint32_t matrix, uint8_t due[HUBQR_RESULT_RECORD_BYTES])
{
    int32_t words[HUBQR_AREA_WORDS];
    struct hubqr_whole_reply whole = hubqr_whole(records[matrix], sizeof records[matrix], words, HUBQR_AREA_WORDS, due,
                                                 HUBQR_RESULT_RECORD_BYTES);
    CHECK(what, whole.number == HUBQR_ACCEPTED);
}

/* The buffer has this record in its first bytes, and what it had behind them. */
static void check_buffer(const char *what, const uint8_t due[HUBQR_RESULT_RECORD_BYTES])
{
    CHECK(what, memcmp(buffer, due, HUBQR_RESULT_RECORD_BYTES) == 0);
    for (int k = HUBQR_RESULT_RECORD_BYTES; k < BUFFER_LENT; k++) {
        CHECK(what, buffer[k] == 0xa5);
    }
}

/* A sector's Fetch by this role writes this record, makes this of the desk and leaves these words in the area. */
static void fetch_by(const char *what, uint32_t role, uint32_t sector, const uint8_t record[HUBQR_RESULT_RECORD_BYTES],
                     const struct hubqr_desk *due, const int32_t words[AREA_LENT])
{
    scribble();
    memcpy(area, areas[sector], sizeof area);
    struct hubqr_desk_reply by_value = hubqr_desk_fetch(role, desk, sector, area, AREA_LENT, buffer, BUFFER_LENT);
    CHECK(what, by_value.number == HUBQR_ACCEPTED && same_desk(&by_value.desk, due));
    check_buffer(what, record);
    memset(buffer, 0xa5, HUBQR_RESULT_RECORD_BYTES);
    CHECK(what, hubqr_desk_fetch_at(role, &desk, sector, areas[sector], AREA_LENT, buffer, BUFFER_LENT) == HUBQR_ACCEPTED);
    CHECK(what, same_desk(&desk, due));
    check_buffer(what, record);
    CHECK(what, memcmp(area, words, sizeof area) == 0 && memcmp(areas[sector], words, sizeof area) == 0);
}

void fetch_as_fitter(const char *what, uint32_t sector, const uint8_t due[HUBQR_RESULT_RECORD_BYTES])
{
    struct hubqr_desk kept = desk;
    int32_t words[AREA_LENT];
    memcpy(words, areas[sector], sizeof words);
    fetch_by(what, HUBQR_FITTER, sector, due, &kept, words);
}

/* The operator's Fetch writes this record and makes this of the desk. In every other sector a fitter had the record before. */
static void fetch_to(const char *what, uint32_t sector, const uint8_t record[HUBQR_RESULT_RECORD_BYTES],
                     const struct hubqr_desk *due)
{
    if (sector % 2 == 1) {
        fetch_as_fitter(what, sector, record);
    }
    fetch_by(what, HUBQR_OPERATOR, sector, record, due, alone[sector]);
}

void fetch(const char *what, uint32_t sector, const uint8_t due[HUBQR_RESULT_RECORD_BYTES])
{
    struct hubqr_desk kept = desk;
    CHECK(what, desk.waits[sector] == 0);
    fetch_to(what, sector, due, &kept);
}

void fetch_whole(const char *what, uint32_t sector, uint32_t matrix)
{
    uint8_t due[HUBQR_RESULT_RECORD_BYTES];
    whole_of(what, matrix, due);
    fetch(what, sector, due);
}

/* The 16-bit number at two bytes of a record, as the area has it. */
static int32_t scaled(const uint8_t *at)
{
    int number = at[0] << 8 | at[1];
    return 8192 * (number < 32768 ? number : number - 65536);
}

/* The words that the bytes of a matrix record are loaded as, whatever its kind byte is and whichever antennas it has heard. */
static void fill(const uint8_t *record, int32_t *words)
{
    for (int n = 0; n < 64; n++) {
        int32_t *above = words + HUBQR_AREA_COLUMNS * (n / 8) + n % 8, *below = above + HUBQR_AREA_COLUMNS * 8;
        above[0] = below[8] = scaled(record + 1 + 4 * n);
        below[0] = scaled(record + 3 + 4 * n);
        above[8] = -below[0];
    }
    for (int n = 0; n < 256; n++) {
        words[HUBQR_AREA_COLUMNS * (n / 16) + 16 + n % 16] = n / 16 == n % 16 ? HUBQR_Q_ONE : 0;
    }
}

void fetch_next(const char *what, uint32_t sector, const uint8_t due[HUBQR_RESULT_RECORD_BYTES], uint8_t heard)
{
    struct hubqr_desk after = desk;
    CHECK(what, desk.waits[sector] != 0);
    after.jobs[sector] = (struct hubqr_job){0, 0};
    after.heard[sector] = heard;
    after.waits[sector] = 0;
    fill(desk.records + HUBQR_MATRIX_RECORD_BYTES * sector, alone[sector]);
    fetch_to(what, sector, due, &after);
    heard_is(what, sector, heard);
}

void fetch_whole_next(const char *what, uint32_t sector, uint32_t matrix, uint32_t next)
{
    uint8_t due[HUBQR_RESULT_RECORD_BYTES];
    int32_t words[AREA_LENT];
    whole_of(what, matrix, due);
    fetch_next(what, sector, due, heard_in(next));
    memcpy(words, alone[sector], sizeof words);
    CHECK(what, hubqr_load(records[next], sizeof records[next], words, AREA_LENT).number == HUBQR_ACCEPTED);
    CHECK(what, memcmp(words, areas[sector], sizeof words) == 0);
}
