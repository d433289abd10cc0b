/* The log: the format, how long entries stay, what a sweep leaves in the buffer, places, and buffers that are just long enough. */
#include "logs.h"

#include <stdlib.h>
#include <string.h>

static const uint32_t kinds[] = {HUBQR_LOG_RESULT, HUBQR_LOG_REFUSAL, HUBQR_LOG_HEARD};
enum { KINDS = sizeof kinds / sizeof *kinds };

/* The bytes of entries as the header lists them. */
static void test_format(void)
{
    static const uint8_t first[] = {7, 1, 2, 3, 4, 0xa5, 6, 0, 0, 0x4e, 0x20, 4, 5, 0xff, 0xfe, 0xfd, 0xfc, 0x21, 0x23, 0x25};
    begin_log(LOG_ROOM);
    CHECK("no entry", log_used == 0 && entries_due() == 0);
    read_log("no entry");
    add_entry("a heard byte", HUBQR_LOG_HEARD, 0x01020304, 0xa5);
    CHECK("six bytes", log_used == 6);
    add_entry("a refusal", HUBQR_LOG_REFUSAL, 20000, HUBQR_NONE_HEARD);
    CHECK("six more", log_used == 12);
    add_entry("a result", HUBQR_LOG_RESULT, 0xfffefdfc, 0x21);
    CHECK("2,054 more", log_used == 2066);
    CHECK("kinds, days and bodies", memcmp(log_bytes, first, sizeof first) == 0);
    CHECK("the last byte of the body", log_bytes[2065] == (uint8_t)(0x21 + 2 * 2048));
}

/* An entry of each kind is there on its last day, and is swept on the next. */
static void test_last_days(void)
{
    static const struct {
        uint32_t kind, there, swept;
    } table[] = {{HUBQR_LOG_RESULT, 106, 107}, {HUBQR_LOG_REFUSAL, 129, 130}, {HUBQR_LOG_HEARD, 189, 190}};
    for (int k = 0; k < KINDS; k++) {
        begin_log(LOG_ROOM);
        add_entry("an entry of day 100", table[k].kind, 100, 0x47);
        sweep_log("the last day", table[k].there);
        CHECK("there on its last day", log_used == 5 + body_length(table[k].kind));
        sweep_log("the day after", table[k].swept);
        CHECK("swept on the day after", log_used == 0);
        sweep_log("a day before", 0);
        CHECK("it does not come back", log_used == 0);
    }
}

/* One entry, and a sweep of it on one day. */
static void swept_on(uint32_t kind, uint32_t written, uint64_t day)
{
    if (day <= UINT32_MAX) {
        begin_log(LOG_ROOM);
        add_entry("an entry of a day", kind, written, 0x35);
        sweep_log("a sweep on another", (uint32_t)day);
        CHECK("there or swept", (log_used > 0) == (day < (uint64_t)written + days_kept(kind)));
    }
}

/* Days at the ends of their range: an entry of a later day stays, and no sum wraps. */
static void test_days(void)
{
    static const uint32_t days[] = {
        0, 1, 6, 7, 89, 90, 255, 256, 65535, 65536, 0x7fffffff, 0x80000000, UINT32_MAX - 90, UINT32_MAX - 7, UINT32_MAX - 6,
        UINT32_MAX - 1, UINT32_MAX,
    };
    for (size_t n = 0; n < sizeof days / sizeof *days; n++) {
        for (int k = 0; k < KINDS; k++) {
            uint64_t end = (uint64_t)days[n] + days_kept(kinds[k]);
            swept_on(kinds[k], days[n], 0);
            swept_on(kinds[k], days[n], days[n]);
            swept_on(kinds[k], days[n], end - 1);
            swept_on(kinds[k], days[n], end);
            swept_on(kinds[k], days[n], UINT32_MAX);
        }
    }
    begin_log(LOG_ROOM);
    add_entry("the last day of all", HUBQR_LOG_RESULT, UINT32_MAX, 1);
    sweep_log("a sweep on it", UINT32_MAX);
    CHECK("it stays", log_used == HUBQR_LOG_RESULT_BYTES);
}

/* Six entries of the three kinds in turn, each old or not: every set of old ones is swept out, and the order of the others stays. */
static void test_gaps(void)
{
    for (unsigned old = 0; old < 64; old++) {
        for (unsigned turn = 0; turn < KINDS; turn++) {
            begin_log(LOG_ROOM);
            for (unsigned n = 0; n < 6; n++) {
                add_entry("old or not", kinds[(n + turn) % KINDS], old >> n & 1 ? 10 : 1000 + n, (uint8_t)(0x30 + n));
            }
            sweep_log("what is old", 500);
            sweep_log("nothing is", 500);
            add_entry("behind the others", HUBQR_LOG_RESULT, 500, 0x41);
        }
    }
}

/* Behind the used bytes all is as before a sweep: what was swept still stands there, until an entry overwrites it. */
static void test_left_behind(void)
{
    static const uint8_t heard[] = {7, 0, 0, 0, 100, 0xf0};
    begin_log(LOG_ROOM);
    add_entry("an old result", HUBQR_LOG_RESULT, 0, 9);
    add_entry("a heard byte", HUBQR_LOG_HEARD, 100, 0xf0);
    sweep_log("the result is old", 100);
    CHECK("the heard byte is first", log_used == 6 && memcmp(log_bytes, heard, 6) == 0);
    CHECK("the rest of the result", log_bytes[6] == 9 && memcmp(log_bytes + 6, log_bytes + 7, 2047) == 0);
    CHECK("the heard byte where it was", memcmp(log_bytes + 2054, heard, 6) == 0);
    add_entry("a refusal over it", HUBQR_LOG_REFUSAL, 100, 15);
    CHECK("six bytes of the result are gone", log_bytes[11] == 15 && log_bytes[12] == 9);
    sweep_log("all is old", 1000);
    CHECK("no entry", log_used == 0);
    CHECK("the heard byte all the same", memcmp(log_bytes, heard, 6) == 0);
}

/* Any body is kept as it is: each byte as a number and as a heard byte, and results that look like entries. */
static void test_bodies(void)
{
    for (int byte = 0; byte < 256; byte++) {
        begin_log(LOG_ROOM);
        add_entry("an old result", HUBQR_LOG_RESULT, 0, (uint8_t)byte);
        for (int k = 0; k < KINDS; k++) {
            add_entry("any body", kinds[k], 100, (uint8_t)byte);
        }
        sweep_log("and after a sweep", 100);
    }
}

/* A place within an entry is not noticed where its bytes can be taken for an entry, and is refused where they cannot. */
static void test_places(void)
{
    begin_log(LOG_ROOM);
    add_entry("a body of kinds", HUBQR_LOG_RESULT, 0x01010101, HUBQR_LOG_HEARD);
    for (size_t at = 1; at < HUBQR_LOG_RESULT_BYTES; at++) {
        struct hubqr_log_entry entry = hubqr_log_next(at, log_used, log_bytes, log_room);
        if (at < 5 || at + 6 > log_used) {
            refuse_next("no entry", at, log_used, log_room);
        } else {
            CHECK("taken for one", entry.number == HUBQR_ACCEPTED && entry.kind == 7 && entry.day == 0x07070707);
            CHECK("taken for one", entry.body == at + 5 && entry.body_len == 1 && entry.next == at + 6);
        }
    }
}

/* An entry that fits exactly is accepted; in a byte less it is not. */
static void test_exact_room(void)
{
    uint8_t body[HUBQR_RESULT_RECORD_BYTES];
    for (int k = 0; k < KINDS; k++) {
        size_t size = 5 + body_length(kinds[k]);
        make_body(0x4c, body, body_length(kinds[k]));
        for (size_t before = 0; before < 3; before++) {
            begin_log(before * HUBQR_LOG_HEARD_BYTES + size);
            for (size_t n = 0; n < before; n++) {
                add_entry("one before it", HUBQR_LOG_HEARD, 1, 1);
            }
            for (size_t room = log_used; room < log_room; room++) {
                refuse_add("a byte or more is missing", kinds[k], body, body_length(kinds[k]), log_used, room, HUBQR_NO_ROOM);
            }
            add_entry("it fits exactly", kinds[k], 1, 0x4c);
            CHECK("the buffer is full", log_used == log_room);
        }
    }
}

/* A null buffer of length 0 is a log without entries. */
static void test_null(void)
{
    uint8_t heard = 1;
    size_t used = 0;
    struct hubqr_log_reply swept = hubqr_log_sweep(100, 0, NULL, 0), added = hubqr_log_add(7, 100, &heard, 1, 0, NULL, 0);
    CHECK("a sweep of nothing", swept.number == HUBQR_ACCEPTED && swept.used == 0);
    CHECK("a sweep of nothing", hubqr_log_sweep_at(100, &used, NULL, 0) == HUBQR_ACCEPTED && used == 0);
    ends_at("reading nothing", hubqr_log_next(0, 0, NULL, 0), 0);
    CHECK("adding to nothing", added.number == HUBQR_NO_ROOM && added.used == 0);
    CHECK("adding to nothing", hubqr_log_add_at(7, 100, &heard, 1, &used, NULL, 0) == HUBQR_NO_ROOM && used == 0);
}

/*
 * A block that nothing was ever written to: valgrind sees what of it is read. The sweep takes the first entry out, so that what
 * is behind the used bytes stays unwritten.
 */
static void test_unwritten_buffer(void)
{
    enum { BYTES = 3 * HUBQR_LOG_HEARD_BYTES };
    uint8_t *block = malloc(BYTES);
    uint8_t heard = 0x81;
    size_t used = 0;
    CHECK("memory for a log", block != NULL);
    CHECK("a sweep at first", hubqr_log_sweep_at(0, &used, block, BYTES) == HUBQR_ACCEPTED && used == 0);
    for (uint32_t day = 0; day < 2; day++) {
        CHECK("adding", hubqr_log_add_at(HUBQR_LOG_HEARD, day, &heard, 1, &used, block, BYTES) == HUBQR_ACCEPTED);
    }
    CHECK("a sweep", hubqr_log_sweep_at(HUBQR_LOG_HEARD_DAYS, &used, block, BYTES) == HUBQR_ACCEPTED && used == 6);
    struct hubqr_log_entry entry = hubqr_log_next(0, used, block, BYTES);
    CHECK("the entry that stays", entry.day == 1 && entry.next == used && block[entry.body] == heard);
    free(block);
}

/* Blocks of exactly the needed sizes on the heap, where valgrind sees a step past their ends. */
static void test_exact_blocks(void)
{
    uint8_t *body = malloc(HUBQR_RESULT_RECORD_BYTES), *block = malloc(HUBQR_LOG_RESULT_BYTES);
    size_t used = 0;
    CHECK("memory for the exact sizes", body && block);
    make_body(0x5b, body, HUBQR_RESULT_RECORD_BYTES);
    for (uint32_t day = 0; day <= 7; day += 7) {
        CHECK("a sweep", hubqr_log_sweep_at(day, &used, block, HUBQR_LOG_RESULT_BYTES) == HUBQR_ACCEPTED && used == 0);
        uint8_t number = hubqr_log_add_at(5, day, body, HUBQR_RESULT_RECORD_BYTES, &used, block, HUBQR_LOG_RESULT_BYTES);
        CHECK("2,054 bytes", number == HUBQR_ACCEPTED && used == HUBQR_LOG_RESULT_BYTES);
        struct hubqr_log_entry entry = hubqr_log_next(0, used, block, HUBQR_LOG_RESULT_BYTES);
        CHECK("read back", entry.day == day && entry.next == used && memcmp(block + entry.body, body, entry.body_len) == 0);
    }
    free(body);
    free(block);
}

void test_log(void)
{
    test_format();
    test_last_days();
    test_days();
    test_gaps();
    test_left_behind();
    test_bodies();
    test_places();
    test_exact_room();
    test_null();
    test_unwritten_buffer();
    test_exact_blocks();
}
