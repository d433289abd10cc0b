/*
 * What the tests of the log share: a buffer with a log in it, a list of the entries that it has to hold, and calls that are made
 * by value and by pointer and checked against that list, each byte of the buffer included.
 */
#ifndef LOGS_H
#define LOGS_H

#include "check.h"

/* The buffer has room for four results at most. What lies behind the bytes that are lent is guards. */
enum { LOG_ROOM = 4 * HUBQR_LOG_RESULT_BYTES, LOG_BYTES = LOG_ROOM + GUARDS };
extern uint8_t log_bytes[LOG_BYTES];
extern size_t log_room, log_used;

/* An entry. Byte n of its body is seed + seed / 16 * n: all are the same for a seed under 16, as 5, 6 and 7 are. */
struct entry {
    uint32_t kind, day;
    uint8_t seed;
};

/* What the header says of a kind: whether it is one, the bytes of its body, and for how many days an entry stays. */
int is_kind(uint32_t kind);
size_t body_length(uint32_t kind);
uint32_t days_kept(uint32_t kind);

/* Fills `length` bytes as those of a body. */
void make_body(uint8_t seed, uint8_t *body, size_t length);
/* Writes an entry as the header says. Returns its bytes. */
size_t put_entry(const struct entry *entry, uint8_t *at);

/* A log without entries in a buffer of this room, which is filled with a pattern. */
void begin_log(size_t room);
/* How many entries the log has to hold. */
size_t entries_due(void);

/* Adding and sweeping that have to be accepted, and the log holds what it should. */
void add_entry(const char *what, uint32_t kind, uint32_t day, uint8_t seed);
void sweep_log(const char *what, uint32_t day);
/* hubqr_log_next reads all entries that the log has to hold, and then the end. */
void read_log(const char *what);

/* Adding to these bytes, and sweeping them, has to be refused: nothing changes, and the reply is the number alone. */
void refuse_add(const char *what, uint32_t kind, const uint8_t *body, size_t length, size_t used, size_t room, uint8_t number);
void refuse_sweep(const char *what, uint32_t day, size_t used, size_t room);
/* Reading at a place has to be refused with 16, and answers 0 in all other fields. */
void refuse_next(const char *what, size_t at, size_t used, size_t room);
/* At this place is the end, which is accepted. */
void ends_at(const char *what, struct hubqr_log_entry entry, size_t used);

#endif
