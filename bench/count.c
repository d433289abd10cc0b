/*
 * Calls whose instructions count.sh counts. With the argument full: MATRICES random matrices by Load, Run and Fetch, and as many
 * others by Whole; the weights of the latter for random targets, the verdicts on them, and SNAPSHOTS random snapshots added and the
 * sums written after each, by the engine and by the versions in C. With the argument half-empty or diagonal: MATRICES such matrices
 * by Whole. With the argument single: MATRICES random matrices by Load and a Run of allowance 1 at each turn number. With the
 * argument desk: MATRICES Runs of request 0 and as many settings of shares, by the engine's desk and by that in C. With the argument
 * loaded: MATRICES hand-ins that are loaded, and as many Fetches while none waits, by both desks; with the argument waiting: as many
 * hand-ins that wait, and Fetches that bring one in. With the argument heard or result: MATRICES such entries added to a log of
 * 90 days of a hub, by the engine and by the version in C; with the argument today or tomorrow: as many sweeps of that log, on
 * the last of these days and on the next one; with the argument read: as many of its entries read.
 */
#include "covariance.h"
#include "desk.h"
#include "log.h"
#include "records.h"
#include "verify.h"
#include "weights.h"

#include <stdlib.h>
#include <string.h>

static int32_t area[HUBQR_AREA_WORDS];
static uint8_t buffer[HUBQR_RESULT_RECORD_BYTES];

static void draw(void *bytes, size_t count)
{
    static uint64_t state = 1;
    for (size_t k = 0; k < count; k++) {
        state = state * UINT64_C(6364136223846793005) + UINT64_C(1442695040888963407);
        ((uint8_t *)bytes)[k] = (uint8_t)(state >> 56);
    }
}

/* A matrix record with any parts. An antenna is heard in it, so that Load and Whole accept it. */
static void draw_record(uint8_t *record)
{
    record[0] = HUBQR_KIND_MATRIX;
    do {
        draw(record + 1, HUBQR_MATRIX_RECORD_BYTES - 1);
    } while (!any_heard(record));
}

/* The same with nothing in the columns of antennas 4 to 7. */
static void draw_half_empty(uint8_t *record)
{
    do {
        draw_record(record);
        for (int n = 0; n < HUBQR_ANTENNAS * HUBQR_ANTENNAS; n++) {
            if (n % HUBQR_ANTENNAS >= 4) {
                memset(record + 1 + 4 * n, 0, 4);
            }
        }
    } while (!any_heard(record));
}

/* A matrix record with (32767, 0) on the diagonal, of which no turn is made. */
static void make_diagonal(uint8_t *record)
{
    memset(record, 0, HUBQR_MATRIX_RECORD_BYTES);
    record[0] = HUBQR_KIND_MATRIX;
    for (int k = 0; k < HUBQR_ANTENNAS; k++) {
        uint8_t *diagonal = record + 1 + 4 * (HUBQR_ANTENNAS * k + k);
        diagonal[0] = 0x7f;
        diagonal[1] = 0xff;
    }
}

static int in_parts(const uint8_t *record)
{
    struct hubqr_load_reply loaded = hubqr_load(record, HUBQR_MATRIX_RECORD_BYTES, area, HUBQR_AREA_WORDS);
    if (loaded.number != HUBQR_ACCEPTED) {
        return 0;
    }
    struct hubqr_run_reply ran = hubqr_run(loaded.job, HUBQR_TURNS, area, HUBQR_AREA_WORDS);
    return ran.number == HUBQR_ACCEPTED
        && hubqr_fetch(ran.job, area, HUBQR_AREA_WORDS, buffer, sizeof buffer) == HUBQR_ACCEPTED;
}

static int at_once(const uint8_t *record)
{
    return hubqr_whole(record, HUBQR_MATRIX_RECORD_BYTES, area, HUBQR_AREA_WORDS, buffer, sizeof buffer).number
        == HUBQR_ACCEPTED;
}

/* Answers whether Load accepts random matrices and Run each of their turns by itself. */
static int turn_by_turn(void)
{
    uint8_t record[HUBQR_MATRIX_RECORD_BYTES];
    for (int k = 0; k < MATRICES; k++) {
        draw_record(record);
        struct hubqr_load_reply loaded = hubqr_load(record, HUBQR_MATRIX_RECORD_BYTES, area, HUBQR_AREA_WORDS);
        struct hubqr_run_reply ran = {.number = loaded.number, .job = loaded.job};
        while (ran.number == HUBQR_ACCEPTED && ran.job.turn < HUBQR_TURNS) {
            ran = hubqr_run(ran.job, 1, area, HUBQR_AREA_WORDS);
        }
        if (ran.number != HUBQR_ACCEPTED) {
            return 0;
        }
    }
    return 1;
}

/* Answers whether the engine and the version in C accept the record that was written and answer the same weights. */
static int weighted(void)
{
    struct hubqr_snapshot targets;
    draw(&targets, sizeof targets);
    struct hubqr_weights_reply by_engine = hubqr_weights(buffer, sizeof buffer, targets);
    struct hubqr_weights_reply in_c = NAME(weights)(buffer, sizeof buffer, targets);
    return by_engine.number == HUBQR_ACCEPTED && in_c.number == HUBQR_ACCEPTED
        && memcmp(by_engine.weights, in_c.weights, sizeof in_c.weights) == 0;
}

/* Answers whether the engine and the version in C say yes to the record that was written, with its matrix record. */
static int verified(const uint8_t *record)
{
    struct hubqr_verdict by_engine = hubqr_verify(record, HUBQR_MATRIX_RECORD_BYTES, buffer, sizeof buffer);
    struct hubqr_verdict in_c = NAME(verify)(record, HUBQR_MATRIX_RECORD_BYTES, buffer, sizeof buffer);
    return by_engine.number == HUBQR_ACCEPTED && by_engine.yes == 1 && in_c.number == HUBQR_ACCEPTED && in_c.yes == 1;
}

/* Answers whether the engine and the version in C accept everything and write the same record. */
static int added(void)
{
    struct hubqr_add_reply by_engine = {HUBQR_ACCEPTED, hubqr_sums_none()};
    struct hubqr_add_reply in_c = by_engine;
    uint8_t record[HUBQR_MATRIX_RECORD_BYTES], record_in_c[HUBQR_MATRIX_RECORD_BYTES];
    for (int k = 0; k < SNAPSHOTS; k++) {
        struct hubqr_snapshot snapshot;
        draw(&snapshot, sizeof snapshot);
        by_engine = hubqr_add_snapshot(snapshot, by_engine.sums);
        in_c = NAME(add_by_value)(snapshot, in_c.sums);
        if (by_engine.number != HUBQR_ACCEPTED || in_c.number != HUBQR_ACCEPTED
            || hubqr_write_matrix(by_engine.sums, record, sizeof record) != HUBQR_ACCEPTED
            || NAME(write_by_value)(in_c.sums, record_in_c, sizeof record_in_c) != HUBQR_ACCEPTED
            || memcmp(record, record_in_c, sizeof record) != 0) {
            return 0;
        }
    }
    return 1;
}

/* Answers whether Whole accepts all matrices that are made in this way. */
static int emptier(void (*make)(uint8_t *record))
{
    uint8_t record[HUBQR_MATRIX_RECORD_BYTES];
    for (int k = 0; k < MATRICES; k++) {
        make(record);
        if (!at_once(record)) {
            return 0;
        }
    }
    return 1;
}

/* Answers whether both desks accept shares and a request of 0, so that what they do beside the turns is counted. */
static int at_desks(void)
{
    static const struct hubqr_shares shares = {{1, 2, 3, 4, 5, 6, 7, 92}};
    struct hubqr_desk desk = hubqr_desk_new();
    for (uint32_t k = 0; k < MATRICES; k++) {
        uint32_t sector = k % HUBQR_SECTORS;
        struct hubqr_desk_run_reply by_engine = hubqr_desk_run(HUBQR_OPERATOR, desk, sector, 0, area, HUBQR_AREA_WORDS);
        struct hubqr_desk_run_reply in_c = NAME(desk_run)(HUBQR_OPERATOR, desk, sector, 0, area, HUBQR_AREA_WORDS);
        if (by_engine.number != HUBQR_ACCEPTED || in_c.number != HUBQR_ACCEPTED
            || hubqr_desk_set_shares(HUBQR_OPERATOR, desk, shares).number != HUBQR_ACCEPTED
            || NAME(desk_set_shares)(HUBQR_OPERATOR, desk, shares).number != HUBQR_ACCEPTED) {
            return 0;
        }
    }
    return 1;
}

/* A matrix record with (32767, 0) on the diagonal and random real parts above it: what is loaded from it is a finished R. */
static void draw_finished(uint8_t *record)
{
    uint8_t parts[2];
    make_diagonal(record);
    for (int n = 0; n < HUBQR_ANTENNAS * HUBQR_ANTENNAS; n++) {
        draw(parts, sizeof parts);
        if (n % HUBQR_ANTENNAS > n / HUBQR_ANTENNAS) {
            memcpy(record + 1 + 4 * n, parts, sizeof parts);
        }
    }
}

/*
 * Answers whether both desks accept hand-ins and Fetches of finished jobs and answer the same desk, with a matrix that waits in all of
 * them or in none. What is loaded is a finished R, so that the next Fetch accepts it.
 */
static int at_hand_in(int waiting)
{
    struct hubqr_desk desk = hubqr_desk_new();
    uint8_t record[HUBQR_MATRIX_RECORD_BYTES];
    memset(area, 0, sizeof area);
    for (uint32_t k = 0; k < MATRICES; k++) {
        uint32_t sector = k % HUBQR_SECTORS;
        draw_finished(record);
        desk.jobs[sector] = (struct hubqr_job){waiting ? 0 : HUBQR_TURNS, 0};
        struct hubqr_desk_load_reply by_engine =
            hubqr_desk_hand_in(HUBQR_OPERATOR, desk, sector, record, sizeof record, area, HUBQR_AREA_WORDS);
        struct hubqr_desk_load_reply in_c =
            NAME(desk_hand_in)(HUBQR_OPERATOR, desk, sector, record, sizeof record, area, HUBQR_AREA_WORDS);
        if (by_engine.number != HUBQR_ACCEPTED || memcmp(&by_engine.desk, &in_c.desk, sizeof desk) != 0) {
            return 0;
        }
        desk = by_engine.desk;
        desk.jobs[sector] = (struct hubqr_job){HUBQR_TURNS, 0};
        struct hubqr_desk_reply fetched =
            hubqr_desk_fetch(HUBQR_OPERATOR, desk, sector, area, HUBQR_AREA_WORDS, buffer, sizeof buffer);
        struct hubqr_desk_reply fetched_in_c =
            NAME(desk_fetch)(HUBQR_OPERATOR, desk, sector, area, HUBQR_AREA_WORDS, buffer, sizeof buffer);
        if (fetched.number != HUBQR_ACCEPTED || memcmp(&fetched.desk, &fetched_in_c.desk, sizeof desk) != 0) {
            return 0;
        }
        desk = fetched.desk;
    }
    return 1;
}

/* What a hub's log holds at the end of 90 days, from day 0 on, and room for a result more. */
enum {
    LAST_DAY = 89,
    LOG_ROOM = 90 * HUBQR_LOG_HEARD_BYTES + 10 * HUBQR_LOG_REFUSAL_BYTES + 8 * HUBQR_LOG_RESULT_BYTES,
};

struct hub_log {
    size_t used;
    uint8_t buffer[LOG_ROOM];
};

static void put_entry(struct hub_log *log, uint8_t kind, uint8_t day, size_t body_len)
{
    uint8_t *entry = log->buffer + log->used;
    memcpy(entry, (uint8_t[HUBQR_LOG_HEAD_BYTES]){kind, 0, 0, 0, day}, HUBQR_LOG_HEAD_BYTES);
    draw(entry + HUBQR_LOG_HEAD_BYTES, body_len);
    log->used += HUBQR_LOG_HEAD_BYTES + body_len;
}

/* Each day has a heard byte and a result, and every third one a refusal. What is too old on the last day is left out. */
static void fill_log(struct hub_log *log)
{
    log->used = 0;
    for (uint8_t day = 0; day <= LAST_DAY; day++) {
        put_entry(log, HUBQR_LOG_HEARD, day, 1);
        if (day % 3 == 0 && LAST_DAY < day + HUBQR_LOG_REFUSAL_DAYS) {
            put_entry(log, HUBQR_LOG_REFUSAL, day, 1);
        }
        if (LAST_DAY < day + HUBQR_LOG_RESULT_DAYS) {
            put_entry(log, HUBQR_LOG_RESULT, day, HUBQR_RESULT_RECORD_BYTES);
        }
    }
}

/* Answers whether both replies accept and leave the same log. */
static int same_log(struct hubqr_log_reply by_engine, const struct hub_log *log, struct hubqr_log_reply in_c,
                    const struct hub_log *log_in_c)
{
    return by_engine.number == HUBQR_ACCEPTED && in_c.number == HUBQR_ACCEPTED && by_engine.used == in_c.used
        && memcmp(log->buffer, log_in_c->buffer, LOG_ROOM) == 0;
}

/* Answers whether both logs accept entries of a kind. */
static int logged(uint32_t kind, size_t body_len)
{
    static struct hub_log log, log_in_c;
    fill_log(&log);
    log_in_c = log;
    for (int k = 0; k < MATRICES; k++) {
        draw(buffer, body_len);
        struct hubqr_log_reply by_engine = hubqr_log_add(kind, LAST_DAY, buffer, body_len, log.used, log.buffer, LOG_ROOM);
        struct hubqr_log_reply in_c = NAME(log_add)(kind, LAST_DAY, buffer, body_len, log.used, log_in_c.buffer, LOG_ROOM);
        if (!same_log(by_engine, &log, in_c, &log_in_c)) {
            return 0;
        }
    }
    return 1;
}

/* Answers whether both logs are swept on a day in the same way. */
static int swept(uint32_t day)
{
    static struct hub_log filled, log, log_in_c;
    fill_log(&filled);
    for (int k = 0; k < MATRICES; k++) {
        log = log_in_c = filled;
        struct hubqr_log_reply by_engine = hubqr_log_sweep(day, log.used, log.buffer, LOG_ROOM);
        struct hubqr_log_reply in_c = NAME(log_sweep)(day, log.used, log_in_c.buffer, LOG_ROOM);
        if (!same_log(by_engine, &log, in_c, &log_in_c)) {
            return 0;
        }
    }
    return 1;
}

/* Answers whether the same entries are read from the log by both. */
static int read_log(void)
{
    static struct hub_log log;
    fill_log(&log);
    size_t at = 0;
    for (int k = 0; k < MATRICES; k++) {
        struct hubqr_log_entry by_engine = hubqr_log_next(at, log.used, log.buffer, LOG_ROOM);
        struct hubqr_log_entry in_c = NAME(log_next)(at, log.used, log.buffer, LOG_ROOM);
        if (by_engine.number != HUBQR_ACCEPTED || in_c.number != HUBQR_ACCEPTED || by_engine.next != in_c.next) {
            return 0;
        }
        at = by_engine.next < log.used ? by_engine.next : 0;
    }
    return 1;
}

/* Answers whether every call accepts what it is handed. */
static int all_calls(void)
{
    uint8_t record[HUBQR_MATRIX_RECORD_BYTES];
    for (int k = 0; k < MATRICES; k++) {
        draw_record(record);
        if (!in_parts(record)) {
            return 0;
        }
        draw_record(record);
        if (!at_once(record) || !weighted() || !verified(record)) {
            return 0;
        }
    }
    return added();
}

/* Answers whether the argument names what can be counted at the log, and all its calls are accepted. */
static int at_log(const char *argument)
{
    if (strcmp(argument, "heard") == 0) {
        return logged(HUBQR_LOG_HEARD, 1);
    }
    if (strcmp(argument, "result") == 0) {
        return logged(HUBQR_LOG_RESULT, HUBQR_RESULT_RECORD_BYTES);
    }
    if (strcmp(argument, "today") == 0) {
        return swept(LAST_DAY);
    }
    if (strcmp(argument, "tomorrow") == 0) {
        return swept(LAST_DAY + 1);
    }
    return strcmp(argument, "read") == 0 && read_log();
}

/* Answers whether the argument names what can be counted, and all its calls are accepted. */
static int counted(const char *argument)
{
    if (strcmp(argument, "full") == 0) {
        return all_calls();
    }
    if (strcmp(argument, "half-empty") == 0) {
        return emptier(draw_half_empty);
    }
    if (strcmp(argument, "single") == 0) {
        return turn_by_turn();
    }
    if (strcmp(argument, "desk") == 0) {
        return at_desks();
    }
    if (strcmp(argument, "loaded") == 0 || strcmp(argument, "waiting") == 0) {
        return at_hand_in(argument[0] == 'w');
    }
    if (strcmp(argument, "diagonal") == 0) {
        return emptier(make_diagonal);
    }
    return at_log(argument);
}

int main(int argc, char **argv)
{
    return argc == 2 && counted(argv[1]) ? EXIT_SUCCESS : EXIT_FAILURE;
}
