/* Adding, sweeping and reading as the request words them, with all their tests: first the tests, then the work. */
#include "log.h"

#include <string.h>

/* The length of the body that a kind fixes, 0 for what is no kind. */
static size_t body_bytes(uint32_t kind)
{
    switch (kind) {
    case HUBQR_LOG_RESULT:
        return HUBQR_RESULT_RECORD_BYTES;
    case HUBQR_LOG_REFUSAL:
    case HUBQR_LOG_HEARD:
        return 1;
    default:
        return 0;
    }
}

/* The bytes of the entry at a place of the used bytes, 0 if no whole one stands there. */
static size_t entry_bytes(size_t at, size_t used, const uint8_t *buffer)
{
    size_t body = body_bytes(buffer[at]);
    return body == 0 || used - at < HUBQR_LOG_HEAD_BYTES + body ? 0 : HUBQR_LOG_HEAD_BYTES + body;
}

static int is_log(size_t used, const uint8_t *buffer, size_t buffer_len)
{
    if (used > buffer_len) {
        return 0;
    }
    for (size_t at = 0; at < used;) {
        size_t bytes = entry_bytes(at, used, buffer);
        if (bytes == 0) {
            return 0;
        }
        at += bytes;
    }
    return 1;
}

static uint32_t day_of(const uint8_t *entry)
{
    return (uint32_t)entry[1] << 24 | (uint32_t)entry[2] << 16 | (uint32_t)entry[3] << 8 | entry[4];
}

static uint64_t days_of(const uint8_t *entry)
{
    switch (entry[0]) {
    case HUBQR_LOG_RESULT:
        return HUBQR_LOG_RESULT_DAYS;
    case HUBQR_LOG_REFUSAL:
        return HUBQR_LOG_REFUSAL_DAYS;
    default:
        return HUBQR_LOG_HEARD_DAYS;
    }
}

static uint8_t add_refusal(uint32_t kind, size_t body_len, size_t used, const uint8_t *buffer, size_t buffer_len)
{
    if (!is_log(used, buffer, buffer_len)) {
        return HUBQR_BROKEN_LOG;
    }
    if (body_bytes(kind) == 0) {
        return HUBQR_WRONG_KIND;
    }
    if (body_len != body_bytes(kind)) {
        return HUBQR_WRONG_LENGTH;
    }
    return buffer_len - used < HUBQR_LOG_HEAD_BYTES + body_len ? HUBQR_NO_ROOM : HUBQR_ACCEPTED;
}

struct hubqr_log_reply NAME(log_add)(uint32_t kind, uint32_t day, const uint8_t *body, size_t body_len, size_t used,
                                     uint8_t *buffer, size_t buffer_len)
{
    struct hubqr_log_reply reply = {add_refusal(kind, body_len, used, buffer, buffer_len), 0};
    if (reply.number == HUBQR_ACCEPTED) {
        uint8_t *entry = buffer + used;
        entry[0] = (uint8_t)kind;
        entry[1] = (uint8_t)(day >> 24);
        entry[2] = (uint8_t)(day >> 16);
        entry[3] = (uint8_t)(day >> 8);
        entry[4] = (uint8_t)day;
        memcpy(entry + HUBQR_LOG_HEAD_BYTES, body, body_len);
        reply.used = used + HUBQR_LOG_HEAD_BYTES + body_len;
    }
    return reply;
}

struct hubqr_log_reply NAME(log_sweep)(uint32_t day, size_t used, uint8_t *buffer, size_t buffer_len)
{
    struct hubqr_log_reply reply = {HUBQR_ACCEPTED, 0};
    if (!is_log(used, buffer, buffer_len)) {
        reply.number = HUBQR_BROKEN_LOG;
        return reply;
    }
    for (size_t at = 0; at < used;) {
        size_t bytes = HUBQR_LOG_HEAD_BYTES + body_bytes(buffer[at]);
        if (day < day_of(buffer + at) + days_of(buffer + at)) {
            if (reply.used < at) {
                memmove(buffer + reply.used, buffer + at, bytes);
            }
            reply.used += bytes;
        }
        at += bytes;
    }
    return reply;
}

struct hubqr_log_entry NAME(log_next)(size_t at, size_t used, const uint8_t *buffer, size_t buffer_len)
{
    struct hubqr_log_entry entry = {HUBQR_ACCEPTED, 0, 0, 0, 0, 0};
    size_t bytes = used <= buffer_len && at < used ? entry_bytes(at, used, buffer) : 0;
    if (bytes > 0) {
        entry.kind = buffer[at];
        entry.day = day_of(buffer + at);
        entry.body = at + HUBQR_LOG_HEAD_BYTES;
        entry.body_len = bytes - HUBQR_LOG_HEAD_BYTES;
        entry.next = at + bytes;
    } else if (used <= buffer_len && at == used) {
        entry.next = used;
    } else {
        entry.number = HUBQR_BROKEN_LOG;
    }
    return entry;
}
