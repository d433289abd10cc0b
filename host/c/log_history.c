/* The log over many calls: room that is used again, what a hub's own calls give, and random histories with refused calls in them. */
#include "logs.h"

/* A buffer for three results of each seven days: a fourth is refused until a sweep has freed its room, which is then used again. */
static void test_room_again(void)
{
    uint8_t body[HUBQR_RESULT_RECORD_BYTES];
    make_body(0x77, body, sizeof body);
    begin_log(4 * HUBQR_LOG_RESULT_BYTES - 1);
    for (uint32_t day = 0; day < 40; day++) {
        sweep_log("each day", day);
        if (day % 7 < 3) {
            add_entry("a result", HUBQR_LOG_RESULT, day, (uint8_t)day);
        } else {
            refuse_add("a fourth", HUBQR_LOG_RESULT, body, sizeof body, log_used, log_room, HUBQR_NO_ROOM);
        }
        CHECK("three results from day 2 on", entries_due() == (day < 2 ? day + 1 : 3));
    }
}

/* What a hub's calls answer goes into the log: a result that is read back is right for its matrix. */
static void test_hub(void)
{
    uint8_t matrix[HUBQR_MATRIX_RECORD_BYTES], unheard[HUBQR_MATRIX_RECORD_BYTES];
    make_matrix(matrix);
    make_equal(unheard, 16);
    begin_log(LOG_ROOM);
    struct hubqr_whole_reply whole = hubqr_whole(matrix, sizeof matrix, area, AREA_LENT, buffer, BUFFER_LENT);
    uint8_t refused = hubqr_load(unheard, sizeof unheard, area, AREA_LENT).number, numbers[2];
    numbers[0] = hubqr_log_add_at(HUBQR_LOG_HEARD, 20000, &whole.heard, 1, &log_used, log_bytes, log_room);
    numbers[1] = hubqr_log_add_at(HUBQR_LOG_REFUSAL, 20000, &refused, 1, &log_used, log_bytes, log_room);
    CHECK("heard byte and refusal", numbers[0] == HUBQR_ACCEPTED && numbers[1] == HUBQR_ACCEPTED);
    numbers[0] = hubqr_log_add_at(HUBQR_LOG_RESULT, 20000, buffer, HUBQR_RESULT_RECORD_BYTES, &log_used, log_bytes, log_room);
    numbers[1] = hubqr_log_sweep_at(20006, &log_used, log_bytes, log_room);
    CHECK("result and sweep", numbers[0] == HUBQR_ACCEPTED && numbers[1] == HUBQR_ACCEPTED);
    struct hubqr_log_entry first = hubqr_log_next(0, log_used, log_bytes, log_room);
    struct hubqr_log_entry second = hubqr_log_next(first.next, log_used, log_bytes, log_room);
    struct hubqr_log_entry third = hubqr_log_next(second.next, log_used, log_bytes, log_room);
    CHECK("the heard byte", first.kind == HUBQR_LOG_HEARD && log_bytes[first.body] == MATRIX_HEARD);
    CHECK("the refusal", second.kind == HUBQR_LOG_REFUSAL && log_bytes[second.body] == HUBQR_NONE_HEARD);
    CHECK("the result", third.kind == HUBQR_LOG_RESULT && third.next == log_used);
    struct hubqr_verdict verdict = hubqr_verify(matrix, sizeof matrix, log_bytes + third.body, third.body_len);
    CHECK("it is right for its matrix", verdict.number == HUBQR_ACCEPTED && verdict.yes == 1);
}

/* Numbers that look random, the same in each run. */
static uint32_t next_number(uint32_t *state)
{
    *state ^= *state << 13;
    *state ^= *state >> 17;
    *state ^= *state << 5;
    return *state;
}

/* The number that adding answers for a log that is a whole run of entries. */
static uint8_t number_due(uint32_t kind, size_t length)
{
    if (!is_kind(kind)) {
        return HUBQR_WRONG_KIND;
    }
    if (length != body_length(kind)) {
        return HUBQR_WRONG_LENGTH;
    }
    return log_room - log_used < 5 + length ? HUBQR_NO_ROOM : HUBQR_ACCEPTED;
}

/* Adds an entry of a kind from 4 to 8, of which two are none, on a day near this one. One body of eight has another length. */
static void add_any(uint32_t day, uint32_t *state)
{
    static const uint8_t body[HUBQR_RESULT_RECORD_BYTES + 1];
    uint32_t kind = 4 + next_number(state) % 5, dated = day + next_number(state) % 40 - 30;
    size_t length = body_length(kind) + (next_number(state) % 8 == 0);
    uint8_t number = number_due(kind, length);
    if (number == HUBQR_ACCEPTED) {
        add_entry("any entry", kind, dated, (uint8_t)next_number(state));
    } else {
        refuse_add("any entry that is refused", kind, body, length, log_used, log_room, number);
    }
}

/* Adds and sweeps as they come, over 300 days from this one on, in a buffer of this room. */
static void test_random(uint32_t seed, size_t room, uint32_t first)
{
    uint32_t state = seed, last = first + 300;
    begin_log(room);
    for (uint32_t day = first; day != last; day++) {
        for (uint32_t calls = next_number(&state) % 5; calls > 0; calls--) {
            add_any(day, &state);
        }
        if (next_number(&state) % 4 != 0) {
            sweep_log("any sweep", day);
        }
    }
}

void test_log_history(void)
{
    test_room_again();
    test_hub();
    for (uint32_t seed = 1; seed <= 4; seed++) {
        test_random(seed, LOG_ROOM, 20000);
        test_random(seed, LOG_ROOM - 2000 * seed, UINT32_MAX - 200);
        test_random(seed, 12 * seed + 5, 100);
    }
}
