/*
 * SPDX-License-Identifier: Apache-2.0
 *
 * hubqr_base.h - what all headers of libhubqr.a stand on: the version, the records, the area and its job, what a compiler is told
 * of a call, and the refusals. Each header includes it, so that a host need not; hubqr.h says in words what these names are for.
 */
#ifndef HUBQR_BASE_H
#define HUBQR_BASE_H

#include <stddef.h>
#include <stdint.h>

/* The version of these headers. */
#define HUBQR_VERSION_MAJOR 0
#define HUBQR_VERSION_MINOR 13
#define HUBQR_VERSION_PATCH 0
#define HUBQR_VERSION (10000 * HUBQR_VERSION_MAJOR + 100 * HUBQR_VERSION_MINOR + HUBQR_VERSION_PATCH)

/* Sizes of the records in bytes. */
#define HUBQR_MATRIX_RECORD_BYTES 257
#define HUBQR_RESULT_RECORD_BYTES 2049
#define HUBQR_REFUSAL_RECORD_BYTES 2

/* The first byte of a record. */
#define HUBQR_KIND_MATRIX 0x01
#define HUBQR_KIND_RESULT 0x02
#define HUBQR_KIND_REFUSAL 0x03

/* Words of the area, and the number of turns. */
#define HUBQR_AREA_WORDS 512
#define HUBQR_TURNS 120

/*
 * What declarations tell a compiler that listens; others see nothing. HUBQR_REPLY: the reply has to be looked at, since it says
 * whether the call was refused, or is all that the call is for. The others name parameters by their places. HUBQR_NONNULL: this
 * pointer is never null. Of a pointer and its length, HUBQR_READS: what is only read, HUBQR_CHANGES: what is read and written,
 * HUBQR_FILLS: what need not hold anything before the call.
 */
#ifdef __has_attribute
#if __has_attribute(warn_unused_result)
#define HUBQR_REPLY __attribute__((warn_unused_result))
#endif
#if __has_attribute(nonnull)
#define HUBQR_NONNULL(pointer) __attribute__((nonnull(pointer)))
#endif
#if __has_attribute(access)
#define HUBQR_READS(pointer, length) __attribute__((access(read_only, pointer, length)))
#define HUBQR_CHANGES(pointer, length) __attribute__((access(read_write, pointer, length)))
#define HUBQR_FILLS(pointer, length) __attribute__((access(write_only, pointer, length)))
#endif
#endif
#ifndef HUBQR_REPLY
#define HUBQR_REPLY
#endif
#ifndef HUBQR_NONNULL
#define HUBQR_NONNULL(pointer)
#endif
#ifndef HUBQR_READS
#define HUBQR_READS(pointer, length)
#define HUBQR_CHANGES(pointer, length)
#define HUBQR_FILLS(pointer, length)
#endif

#ifdef __cplusplus
extern "C" {
#endif

/* How far the work on an area is. */
struct hubqr_job {
    uint32_t turn; /* the turn number: how many of the 120 turns are done, the skipped ones included */
    uint32_t made; /* how many turns were truly made since Load */
};

/* The refusals: the name in enum hubqr_refusal, the number, and what hubqr_refusal_words says of it. */
#define HUBQR_REFUSALS(X)                                                                                                      \
    X(HUBQR_WRONG_KIND, 1,                                                                                                     \
      "the record is empty or its kind byte is not the one expected, or a log has no such kind of entry")                      \
    X(HUBQR_WRONG_LENGTH, 2,                                                                                                   \
      "the record's length is not 257 bytes for a matrix or 2,049 bytes for a result, "                                        \
      "or a log entry's body has not the length of its kind")                                                                  \
    X(HUBQR_AREA_TOO_SHORT, 3, "the area has fewer than 512 words")                                                            \
    X(HUBQR_NONE_HEARD, 4, "no antenna was heard: the real part of every diagonal element is 16 or less")                      \
    X(HUBQR_NO_SUCH_JOB, 5, "the turn number is above 120, or less than the turns made")                                       \
    X(HUBQR_UNFINISHED, 6, "the turn number is under 120, so the result is not finished")                                      \
    X(HUBQR_BUFFER_TOO_SHORT, 7, "the buffer has fewer than 2,049 bytes for a result or 257 bytes for a matrix")               \
    X(HUBQR_NOT_TRIANGULAR, 8,                                                                                                 \
      "R has a word under its diagonal that is not 0, or a negative one among its first 15 diagonal words")                    \
    X(HUBQR_NONE_ADDED, 9, "no snapshot has been added")                                                                       \
    X(HUBQR_SUMS_OUT_OF_RANGE, 10,                                                                                             \
      "4,096 snapshots have been added already, the count is above that, or a sum is beyond 2^31 times the count")             \
    X(HUBQR_ZERO_DIAGONAL, 11, "one of R's 16 diagonal words is 0")                                                            \
    X(HUBQR_NO_SUCH_SECTOR, 12, "the sector is above 7")                                                                       \
    X(HUBQR_COUNT_USED_UP, 13, "turns are requested for an unfinished job, and the sector has none left in the round")         \
    X(HUBQR_SHARES_EXCEED_ROUND, 14, "the shares are above 120 in total")                                                      \
    X(HUBQR_NOT_ALLOWED, 15, "the call is not allowed to this role")                                                           \
    X(HUBQR_BROKEN_LOG, 16, "the used bytes of the log pass the buffer or are no whole run of entries")                        \
    X(HUBQR_NO_ROOM, 17, "the entry does not fit behind the used bytes of the log")

/* What a reply's `number` can be. */
enum hubqr_refusal {
    HUBQR_ACCEPTED = 0, /* no test failed, the call has done its work */
#define HUBQR_REFUSAL_NUMBER(name, number, words) name = number,
    HUBQR_REFUSALS(HUBQR_REFUSAL_NUMBER)
#undef HUBQR_REFUSAL_NUMBER
};

/* A number in words: a sentence without a full stop, "accepted" for 0, "no refusal number" for a number that is none. */
static inline const char *hubqr_refusal_words(uint8_t number)
{
    switch (number) {
    case HUBQR_ACCEPTED: return "accepted";
#define HUBQR_REFUSAL_WORDS(name, number, words) case name: return words;
    HUBQR_REFUSALS(HUBQR_REFUSAL_WORDS)
#undef HUBQR_REFUSAL_WORDS
    default: return "no refusal number";
    }
}

/* The version of the archive: 10000 * major + 100 * minor + patch. */
uint32_t hubqr_version(void) HUBQR_REPLY;

#ifdef __cplusplus
}
#endif

#endif
