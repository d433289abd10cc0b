#include "logs.h"

#include <string.h>

uint8_t log_bytes[LOG_BYTES];
size_t log_room, log_used;

/* The entries that the log has to hold, and the buffer as it has to be after a call. */
static struct entry held[LOG_ROOM / HUBQR_LOG_HEARD_BYTES];
static size_t count;
static uint8_t due[LOG_BYTES];
/* The buffer that a call by value is lent, before the same call by pointer is lent the log. */
static uint8_t copy[LOG_BYTES];

int is_kind(uint32_t kind)
{
    return kind == HUBQR_LOG_RESULT || kind == HUBQR_LOG_REFUSAL || kind == HUBQR_LOG_HEARD;
}

size_t body_length(uint32_t kind)
{
    return kind == HUBQR_LOG_RESULT ? HUBQR_RESULT_RECORD_BYTES : 1;
}

uint32_t days_kept(uint32_t kind)
{
    return kind == HUBQR_LOG_RESULT ? 7 : kind == HUBQR_LOG_REFUSAL ? 30 : 90;
}

void make_body(uint8_t seed, uint8_t *body, size_t length)
{
    for (size_t n = 0; n < length; n++) {
        body[n] = (uint8_t)(seed + seed / 16 * n);
    }
}

size_t put_entry(const struct entry *entry, uint8_t *at)
{
    at[0] = (uint8_t)entry->kind;
    for (int n = 0; n < 4; n++) {
        at[1 + n] = (uint8_t)(entry->day >> (24 - 8 * n));
    }
    make_body(entry->seed, at + 5, body_length(entry->kind));
    return 5 + body_length(entry->kind);
}

void begin_log(size_t room)
{
    for (size_t n = 0; n < LOG_BYTES; n++) {
        log_bytes[n] = (uint8_t)(0xa5 + 3 * n);
    }
    log_room = room;
    log_used = count = 0;
}

size_t entries_due(void)
{
    return count;
}

/* What both forms have answered and made of their buffers is what was due. */
static void as_due(const char *what, struct hubqr_log_reply reply, uint8_t number, size_t used)
{
    CHECK(what, reply.number == HUBQR_ACCEPTED && number == HUBQR_ACCEPTED);
    CHECK(what, reply.used == used && log_used == used);
    CHECK(what, memcmp(copy, due, LOG_BYTES) == 0);
    CHECK(what, memcmp(log_bytes, due, LOG_BYTES) == 0);
    read_log(what);
}

void add_entry(const char *what, uint32_t kind, uint32_t day, uint8_t seed)
{
    uint8_t body[HUBQR_RESULT_RECORD_BYTES];
    size_t length = body_length(kind);
    held[count] = (struct entry){kind, day, seed};
    make_body(seed, body, length);
    memcpy(copy, log_bytes, LOG_BYTES);
    memcpy(due, log_bytes, LOG_BYTES);
    size_t used = log_used + put_entry(&held[count++], due + log_used);
    struct hubqr_log_reply reply = hubqr_log_add(kind, day, body, length, log_used, copy, log_room);
    as_due(what, reply, hubqr_log_add_at(kind, day, body, length, &log_used, log_bytes, log_room), used);
}

void sweep_log(const char *what, uint32_t day)
{
    size_t used = 0, kept = 0;
    memcpy(copy, log_bytes, LOG_BYTES);
    memcpy(due, log_bytes, LOG_BYTES);
    for (size_t n = 0; n < count; n++) {
        if (day < (uint64_t)held[n].day + days_kept(held[n].kind)) {
            used += put_entry(&held[n], due + used);
            held[kept++] = held[n];
        }
    }
    count = kept;
    struct hubqr_log_reply reply = hubqr_log_sweep(day, log_used, copy, log_room);
    as_due(what, reply, hubqr_log_sweep_at(day, &log_used, log_bytes, log_room), used);
}

void ends_at(const char *what, struct hubqr_log_entry entry, size_t used)
{
    CHECK(what, entry.number == HUBQR_ACCEPTED && entry.kind == 0 && entry.day == 0);
    CHECK(what, entry.body == 0 && entry.body_len == 0 && entry.next == used);
}

void read_log(const char *what)
{
    uint8_t body[HUBQR_RESULT_RECORD_BYTES];
    size_t at = 0;
    for (size_t n = 0; n < count; n++) {
        struct hubqr_log_entry entry = hubqr_log_next(at, log_used, log_bytes, log_room);
        make_body(held[n].seed, body, body_length(held[n].kind));
        CHECK(what, entry.number == HUBQR_ACCEPTED && entry.kind == held[n].kind && entry.day == held[n].day);
        CHECK(what, entry.body == at + 5 && entry.body_len == body_length(entry.kind));
        CHECK(what, memcmp(log_bytes + entry.body, body, entry.body_len) == 0);
        CHECK(what, entry.next == entry.body + entry.body_len);
        at = entry.next;
    }
    CHECK(what, at == log_used);
    ends_at(what, hubqr_log_next(at, log_used, log_bytes, log_room), log_used);
}

void refuse_add(const char *what, uint32_t kind, const uint8_t *body, size_t length, size_t used, size_t room, uint8_t number)
{
    size_t kept = used;
    memcpy(due, log_bytes, LOG_BYTES);
    struct hubqr_log_reply reply = hubqr_log_add(kind, 1000, body, length, used, log_bytes, room);
    CHECK(what, reply.number == number && reply.used == 0);
    CHECK(what, hubqr_log_add_at(kind, 1000, body, length, &kept, log_bytes, room) == number && kept == used);
    CHECK(what, memcmp(log_bytes, due, LOG_BYTES) == 0);
}

void refuse_sweep(const char *what, uint32_t day, size_t used, size_t room)
{
    size_t kept = used;
    memcpy(due, log_bytes, LOG_BYTES);
    struct hubqr_log_reply reply = hubqr_log_sweep(day, used, log_bytes, room);
    CHECK(what, reply.number == HUBQR_BROKEN_LOG && reply.used == 0);
    CHECK(what, hubqr_log_sweep_at(day, &kept, log_bytes, room) == HUBQR_BROKEN_LOG && kept == used);
    CHECK(what, memcmp(log_bytes, due, LOG_BYTES) == 0);
}

void refuse_next(const char *what, size_t at, size_t used, size_t room)
{
    struct hubqr_log_entry entry = hubqr_log_next(at, used, log_bytes, room);
    CHECK(what, entry.number == HUBQR_BROKEN_LOG && entry.kind == 0 && entry.day == 0);
    CHECK(what, entry.body == 0 && entry.body_len == 0 && entry.next == 0);
}
