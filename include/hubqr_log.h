/*
 * SPDX-License-Identifier: Apache-2.0
 *
 * hubqr_log.h - a log in a lent buffer: keeps results, refusals and heard bytes, each with its day, and sweeps out what is too
 * old. hubqr.h includes this header, and what it says on replies, ownership, threads, aliasing, null, lengths and versions holds
 * here as well.
 *
 * Use
 *   Begin:           any buffer, whatever it holds, and a used count of 0, which the caller keeps beside it. With that count no
 *                    byte is read; gcc, which cannot know that, wants a local buffer to be written to before: `= {0}` does it.
 *   For each entry:  hubqr_log_add; by pointer, hubqr_log_add_at.
 *   For each day:    hubqr_log_sweep; by pointer, hubqr_log_sweep_at. Adding does not sweep.
 *   To read:         hubqr_log_next, at place 0 first and then at each place that it answers, while that is under the used count.
 *
 * Words used below
 *   entry       One thing that is kept, with its kind and its day.
 *   kind        What an entry is: a result record, a refusal number or a heard byte, by the numbers HUBQR_LOG_RESULT,
 *               HUBQR_LOG_REFUSAL and HUBQR_LOG_HEARD. Others are none.
 *   day         A day by its number, counted from 1 January 1970, which is day 0. The library has no clock: adding is handed the
 *               day that the entry gets, and a sweep the day that it is made on. A host that counts seconds from the same date,
 *               as most clocks do, divides them by 86,400.
 *   body        What is kept: the bytes of the record, the number or the heard byte. It has the length that the kind fixes.
 *   used count  How many bytes of the buffer the log takes, from the first one on: these are the used bytes. The buffer does not
 *               hold the count. The caller keeps it and hands it to the next call.
 *   sweep       A call of hubqr_log_sweep. It takes out the entries that are too old on its day.
 *
 * The format
 *   Entries stand one after another from the first byte of the buffer on, with nothing between them, in the order in which they
 *   were added. Each has its kind in one byte, its day in four, high byte first, and then its body:
 *     kind  body                   its bytes  with kind and day  stays
 *     05    a result record            2,049              2,054   7 days
 *     06    a refusal number               1                  6  30 days
 *     07    a heard byte                   1                  6  90 days
 *   The body is stored untested: any bytes of the right length are kept as they are, those of a record that hubqr_read refuses as
 *   well. The kinds alone tell where entries end: used bytes are a whole run of entries if, entry by entry, each begins with one
 *   of the three kinds and all its bytes are used ones. No byte at all, with used count 0, is a run of no entries.
 *   The used bytes may be copied and kept anywhere. Nothing in them depends on the machine.
 *
 * How long entries stay
 *   A sweep on day d keeps an entry while d is less than the entry's day plus 7 for a result, 30 for a refusal and 90 for a heard
 *   byte, and takes out the others. A result of day 100 is there on day 106 and swept on day 107. The sums are exact and do not
 *   wrap at 2^32. An entry that is dated after the day of the sweep stays, however far ahead its day is. So a clock that was
 *   ahead once leaves entries that take room for long, and those of the last days that 32 bits can count are never swept. And a
 *   sweep on a day that is too late takes out at once what should have stayed: no call brings it back.
 *   The entries that stay are moved to the front, in their order, so that what is freed is at the end, where the next ones are
 *   added.
 *
 * What a sweep leaves behind
 *   Bytes from the new used count on stay as they were before the sweep. So what was swept may still stand there, whole or in
 *   part, until it is overwritten. A host that must not keep it clears those bytes itself, as soon as a sweep is accepted:
 *     if (used < buffer_len) {
 *         memset(buffer + used, 0, buffer_len - used);
 *     }
 *   with the count that the sweep answered. A host that stores or sends a log takes its used bytes and not the whole buffer.
 *
 * Keeping the count
 *   A refused call answers 0 for the used count, as for every field but the number. The log has not changed then, and the count
 *   that was handed over goes on holding: keep that one. A host that takes the 0 for its count has lost all entries, since 0 is
 *   the count of a log without any, and the next one is added over the first. So look at `number` before the count is taken over,
 *   or use hubqr_log_add_at and hubqr_log_sweep_at, which leave the count as it is when they refuse.
 *   hubqr_log_add and hubqr_log_sweep test the count anew: it may not pass the buffer and has to end on an entry. Another count
 *   that does is not noticed. A lower one loses the entries behind it. One from before a sweep, if it ends on an entry at all,
 *   brings back what was swept, and a second time what was moved.
 *
 * Reading
 *   hubqr_log_next answers for one entry its kind, its day, where its body stands in the buffer, how long that is, and the place
 *   of the next entry:
 *     for (size_t at = 0; at < used;) {
 *         struct hubqr_log_entry entry = hubqr_log_next(at, used, buffer, buffer_len);
 *         if (entry.number != HUBQR_ACCEPTED) {
 *             break;
 *         }
 *         ..                                    the body is the entry.body_len bytes from buffer + entry.body on
 *         at = entry.next;
 *     }
 *   At the end, where the place is the used count, there is no entry, which is no error: kind, day, body and body_len are 0, and
 *   the next place is the used count, where an entry would be added. Kind 0 tells that from an entry.
 *   The call looks at this one entry and at nothing else of the log, so that a whole log is read in linear time. Reading from
 *   place 0 on meets a refusal exactly if hubqr_log_add and hubqr_log_sweep refuse the log with 16. Places are 0 and what the
 *   call answered. Any other is not noticed, if the bytes there can be taken for an entry, as those of a body may be. A place is
 *   good until the next sweep.
 *
 * What is proved
 *   Every call does what is said with it, to its last bit, whatever it is handed. Besides, let a log begin with used count 0 in
 *   any buffer, let calls of hubqr_log_add and hubqr_log_sweep follow in any order, refused ones among them, let each be handed
 *   the used count that the last accepted one answered, and let nobody else write to the used bytes. Then
 *     the used bytes hold the entries that were accepted and that no later sweep found too old, these and no others, in the order
 *     in which they were added, and hubqr_log_next reads them back;
 *     no call is refused with 16, so that no sweep is refused at all;
 *     an entry of a known kind, with the length of that kind, is accepted exactly if it fits into the buffer behind these
 *     entries: what sweeps have freed is used again.
 *
 * Time
 *   Adding and sweeping take time that is linear in the used bytes, since both go through all entries; hubqr_log_next takes the
 *   same time at any place. docs/BENCHMARKS.md has figures.
 *
 * Refusals
 *   A refused call changes no byte of the buffer, and all fields of its reply but the number are 0, the used count too.
 *   Test 16 comes before all others: a log that is broken is refused with it, whatever entry is added. Test 17 comes last, so
 *   that an entry refused with it is added as it is after a sweep that frees enough. If it is longer than the whole buffer, none
 *   does. An entry that fits exactly is accepted.
 *   A kind has 32 bits, so that 261 and 65,541 are refused with 1 and not cut to 5. C cuts wider types: keep kinds and days in 32
 *   bits.
 */
#ifndef HUBQR_LOG_H
#define HUBQR_LOG_H

#include "hubqr_base.h"

/* The kinds of entries. */
#define HUBQR_LOG_RESULT 5
#define HUBQR_LOG_REFUSAL 6
#define HUBQR_LOG_HEARD 7

/* What stands before a body, kind and day, and whole entries, in bytes. */
#define HUBQR_LOG_HEAD_BYTES 5
#define HUBQR_LOG_RESULT_BYTES 2054
#define HUBQR_LOG_REFUSAL_BYTES 6
#define HUBQR_LOG_HEARD_BYTES 6

/* How long entries stay, in days. */
#define HUBQR_LOG_RESULT_DAYS 7
#define HUBQR_LOG_REFUSAL_DAYS 30
#define HUBQR_LOG_HEARD_DAYS 90

#ifdef __cplusplus
extern "C" {
#endif

/* What adding and sweeping answer. */
struct hubqr_log_reply {
    uint8_t number; /* HUBQR_ACCEPTED, or the refusal */
    size_t used;    /* the used count to hand to the next call; refused: 0, and the one that was handed over goes on holding */
};

/*
 * Add: writes an entry behind the used bytes, and changes no other byte. The body may not overlap the buffer: one that was read
 * from the same log is copied first.
 * Tests, in this order: 16, when the used bytes pass the buffer or are no whole run of entries; 1, when the kind is not 5, 6 or
 * 7; 2, when the body has not the length of its kind; 17, when the entry does not fit behind the used bytes.
 */
struct hubqr_log_reply hubqr_log_add(uint32_t kind, uint32_t day, const uint8_t *body, size_t body_len, size_t used,
                                     uint8_t *buffer, size_t buffer_len)
    HUBQR_REPLY HUBQR_READS(3, 4) HUBQR_CHANGES(6, 7);

/*
 * Sweep: takes out the entries that are too old on this day, and moves the others to the front. Bytes from the new used count on
 * stay as they were: what was swept may still stand there.
 * Test: 16, when the used bytes pass the buffer or are no whole run of entries.
 */
struct hubqr_log_reply hubqr_log_sweep(uint32_t day, size_t used, uint8_t *buffer, size_t buffer_len)
    HUBQR_REPLY HUBQR_CHANGES(3, 4);

/* What reading answers. Body and next are places in the buffer, counted from its first byte, which is place 0. */
struct hubqr_log_entry {
    uint8_t number;  /* HUBQR_ACCEPTED, or the refusal */
    uint32_t kind;   /* the entry's kind; at the end: 0 */
    uint32_t day;    /* its day; at the end: 0 */
    size_t body;     /* where its body stands; at the end: 0 */
    size_t body_len; /* how many bytes that has; at the end: 0 */
    size_t next;     /* where the next entry stands, and at the end the used count; refused: 0 */
};

/*
 * Next: answers what the entry at a place of the used bytes is. The buffer is only read.
 * Test: 16, when the used bytes pass the buffer, `at` is above the used count, or no whole entry stands at `at`, which is not the
 * used count: its kind is not 5, 6 or 7, or its last byte is not a used one.
 */
struct hubqr_log_entry hubqr_log_next(size_t at, size_t used, const uint8_t *buffer, size_t buffer_len)
    HUBQR_REPLY HUBQR_READS(3, 4);

/*
 * The calls by pointer: the used count is changed in place, and a refusal leaves it as it is. It may not overlap the body or the
 * buffer. They answer the number.
 */
HUBQR_REPLY HUBQR_NONNULL(5) HUBQR_READS(3, 4) HUBQR_CHANGES(6, 7)
static inline uint8_t hubqr_log_add_at(uint32_t kind, uint32_t day, const uint8_t *body, size_t body_len, size_t *used,
                                       uint8_t *buffer, size_t buffer_len)
{
    struct hubqr_log_reply reply = hubqr_log_add(kind, day, body, body_len, *used, buffer, buffer_len);
    if (reply.number == HUBQR_ACCEPTED) {
        *used = reply.used;
    }
    return reply.number;
}

HUBQR_REPLY HUBQR_NONNULL(2) HUBQR_CHANGES(3, 4)
static inline uint8_t hubqr_log_sweep_at(uint32_t day, size_t *used, uint8_t *buffer, size_t buffer_len)
{
    struct hubqr_log_reply reply = hubqr_log_sweep(day, *used, buffer, buffer_len);
    if (reply.number == HUBQR_ACCEPTED) {
        *used = reply.used;
    }
    return reply.number;
}

#ifdef __cplusplus
}
#endif

#endif
