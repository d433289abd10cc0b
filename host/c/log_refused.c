/* Refused calls on a log: each number of each call, the order of the tests, and that nothing is changed. */
#include "logs.h"

#include <string.h>

/* Body bytes for any length that is tried. */
static uint8_t body[HUBQR_RESULT_RECORD_BYTES + 20];

/* A log of four entries of all kinds. A seed of 1 makes bodies in which no byte is a kind. */
static void begin_four(void)
{
    begin_log(LOG_ROOM);
    add_entry("a heard byte", HUBQR_LOG_HEARD, 10, 1);
    add_entry("a result", HUBQR_LOG_RESULT, 10, 1);
    add_entry("a refusal", HUBQR_LOG_REFUSAL, 10, 1);
    add_entry("a heard byte", HUBQR_LOG_HEARD, 10, 1);
}

/* Whether entries of `begin_four` end at a count. */
static int is_end(size_t used)
{
    return used == 0 || used == 6 || used == 2060 || used == 2066 || used == 2072;
}

/* All calls find that the used bytes are no log, and reading from place 0 on comes to a refusal. */
static void all_refuse(const char *what, size_t used, size_t room)
{
    size_t at = 0;
    struct hubqr_log_entry entry = hubqr_log_next(0, used, log_bytes, room);
    refuse_add(what, HUBQR_LOG_HEARD, body, 1, used, room, HUBQR_BROKEN_LOG);
    refuse_sweep(what, 10, used, room);
    refuse_sweep(what, UINT32_MAX, used, room);
    while (entry.number == HUBQR_ACCEPTED) {
        CHECK(what, entry.kind != 0 && entry.next > at);
        at = entry.next;
        entry = hubqr_log_next(at, used, log_bytes, room);
    }
    refuse_next(what, at, used, room);
}

/* Every count of used bytes: those at which an entry ends are accepted. */
static void test_counts(void)
{
    begin_four();
    for (size_t used = 0; used <= LOG_ROOM; used++) {
        if (is_end(used)) {
            struct hubqr_log_reply swept = hubqr_log_sweep(10, used, log_bytes, LOG_ROOM);
            CHECK("an entry ends here", swept.number == HUBQR_ACCEPTED && swept.used == used);
        } else if (used < 2072) {
            all_refuse("no entry ends here", used, LOG_ROOM);
        } else {
            refuse_sweep("bytes that are no entry", 10, used, LOG_ROOM);
        }
    }
    for (size_t room = 0; room < log_used; room++) {
        all_refuse("the used bytes pass the buffer", log_used, room);
    }
    all_refuse("one more than the buffer", LOG_ROOM + 1, LOG_ROOM);
    all_refuse("the largest count", SIZE_MAX, LOG_ROOM);
    all_refuse("the largest count but four", SIZE_MAX - 4, LOG_ROOM);
    all_refuse("a count in no buffer", 1, 0);
}

/* Each byte in the place of each kind byte. Entries of six bytes may be of either kind. */
static void test_kind_bytes(void)
{
    static const size_t places[] = {0, 6, 2060, 2066};
    for (size_t n = 0; n < sizeof places / sizeof *places; n++) {
        for (int byte = 0; byte < 256; byte++) {
            begin_four();
            log_bytes[places[n]] = (uint8_t)byte;
            int is_right = n == 1 ? byte == HUBQR_LOG_RESULT : byte == HUBQR_LOG_REFUSAL || byte == HUBQR_LOG_HEARD;
            if (is_right) {
                struct hubqr_log_reply swept = hubqr_log_sweep(10, log_used, log_bytes, LOG_ROOM);
                CHECK("one of the kinds", swept.number == HUBQR_ACCEPTED && swept.used == log_used);
            } else {
                all_refuse("no kind, or one of another length", log_used, LOG_ROOM);
            }
        }
    }
}

/* Numbers of no kind. Cut to 8, 16, 24 or 31 bits, some would be one. The kind comes before the body and the room. */
static void refuse_kind(uint32_t kind)
{
    refuse_add("no kind", kind, body, 1, log_used, LOG_ROOM, HUBQR_WRONG_KIND);
    refuse_add("no kind", kind, body, HUBQR_RESULT_RECORD_BYTES, log_used, log_used, HUBQR_WRONG_KIND);
    refuse_add("no kind, no body", kind, NULL, 0, log_used, log_used, HUBQR_WRONG_KIND);
}

static void test_kinds(void)
{
    begin_four();
    for (uint32_t kind = 0; kind < 600; kind++) {
        if (!is_kind(kind)) {
            refuse_kind(kind);
        }
    }
    for (uint32_t kind = HUBQR_LOG_RESULT; kind <= HUBQR_LOG_HEARD; kind++) {
        refuse_kind(kind + 0x10000);
        refuse_kind(kind + 0x1000000);
        refuse_kind(kind << 24);
        refuse_kind(kind + 0x80000000);
        refuse_kind(UINT32_MAX - 255 + kind);
    }
    refuse_kind(UINT32_MAX);
}

/* Each body of another length, with room for it and without. */
static void test_lengths(void)
{
    begin_four();
    for (uint32_t kind = HUBQR_LOG_RESULT; kind <= HUBQR_LOG_HEARD; kind++) {
        refuse_add("a null body", kind, NULL, 0, log_used, LOG_ROOM, HUBQR_WRONG_LENGTH);
        for (size_t length = 0; length <= sizeof body; length++) {
            if (length != body_length(kind)) {
                refuse_add("another length", kind, body, length, log_used, LOG_ROOM, HUBQR_WRONG_LENGTH);
                refuse_add("another length, no room", kind, body, length, log_used, log_used, HUBQR_WRONG_LENGTH);
            }
        }
    }
}

/* Each fault with each other one: 16, then 1, then 2, then 17. The last of each list is no fault. */
static void test_order(void)
{
    static const size_t counts[] = {1, 5, 2059, 2067, SIZE_MAX, 2072}, lengths[] = {0, 2, 2048, 2050, 1};
    static const uint32_t kinds[] = {0, 4, 8, 263, UINT32_MAX, HUBQR_LOG_HEARD};
    begin_four();
    for (int c = 0; c < 6; c++) {
        for (int k = 0; k < 6; k++) {
            for (int n = 0; n < 5; n++) {
                uint8_t late = k < 5 ? HUBQR_WRONG_KIND : n < 4 ? HUBQR_WRONG_LENGTH : HUBQR_NO_ROOM;
                uint8_t number = c < 5 ? HUBQR_BROKEN_LOG : late;
                refuse_add("a fault of each", kinds[k], body, lengths[n], counts[c], 2077, number);
            }
        }
    }
    add_entry("without a fault", HUBQR_LOG_HEARD, 10, 1);
}

/* A null buffer, in which any used byte is one too many. */
static void test_null(void)
{
    size_t used = 1;
    struct hubqr_log_reply added = hubqr_log_add(HUBQR_LOG_HEARD, 10, body, 1, 1, NULL, 0);
    struct hubqr_log_reply swept = hubqr_log_sweep(10, 1, NULL, 0);
    CHECK("adding", added.number == HUBQR_BROKEN_LOG && added.used == 0);
    CHECK("a sweep", swept.number == HUBQR_BROKEN_LOG && swept.used == 0);
    CHECK("a sweep", hubqr_log_sweep_at(10, &used, NULL, 0) == HUBQR_BROKEN_LOG && used == 1);
    CHECK("reading", hubqr_log_next(0, 1, NULL, 0).number == HUBQR_BROKEN_LOG);
    CHECK("reading", hubqr_log_next(1, 0, NULL, 0).number == HUBQR_BROKEN_LOG);
    CHECK("no kind", hubqr_log_add(0, 10, NULL, 0, 0, NULL, 0).number == HUBQR_WRONG_KIND);
    CHECK("no body", hubqr_log_add(HUBQR_LOG_HEARD, 10, NULL, 0, 0, NULL, 0).number == HUBQR_WRONG_LENGTH);
}

/* Places behind the used bytes, and the end where the used bytes pass the buffer. An entry that is whole is read by itself. */
static void test_places(void)
{
    begin_four();
    for (size_t at = log_used + 1; at <= LOG_ROOM + 1; at++) {
        refuse_next("a place behind the used bytes", at, log_used, LOG_ROOM);
    }
    refuse_next("the largest place", SIZE_MAX, log_used, LOG_ROOM);
    refuse_next("the largest place but four", SIZE_MAX - 4, log_used, LOG_ROOM);
    refuse_next("the end, a byte behind the buffer", log_used, log_used, log_used - 1);
    refuse_next("the end, far behind the buffer", SIZE_MAX, SIZE_MAX, LOG_ROOM);
    for (size_t at = 1; at < log_used; at++) {
        if (!is_end(at)) {
            refuse_next("a place within an entry", at, log_used, LOG_ROOM);
        }
    }
    log_bytes[6] = 0;
    struct hubqr_log_entry first = hubqr_log_next(0, log_used, log_bytes, LOG_ROOM);
    CHECK("the entry before a broken one", first.number == HUBQR_ACCEPTED && first.kind == HUBQR_LOG_HEARD && first.next == 6);
    refuse_next("the broken one", first.next, log_used, LOG_ROOM);
}

void test_log_refused(void)
{
    memset(body, HUBQR_LOG_HEARD, sizeof body);
    test_counts();
    test_kind_bytes();
    test_kinds();
    test_lengths();
    test_order();
    test_null();
    test_places();
}
