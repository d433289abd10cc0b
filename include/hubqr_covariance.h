/*
 * SPDX-License-Identifier: Apache-2.0
 *
 * hubqr_covariance.h - snapshots in, matrix out: adds up what a radio hub's eight antennas heard, instant by instant, and writes
 * the matrix record that hubqr_load and hubqr_whole take. hubqr.h includes this header, and what it says on replies, ownership,
 * threads, aliasing, null, lengths and versions holds here as well.
 *
 * Use
 *   Begin:                 hubqr_sums_none.
 *   For each snapshot:     hubqr_add_snapshot, up to 4,096 times; by pointer, hubqr_add_snapshot_at.
 *   When a matrix is due:  hubqr_write_matrix; by pointer, hubqr_write_matrix_at. The record goes straight into hubqr_load or
 *                          hubqr_whole. Writing leaves the sums as they are, so that adding may go on after it.
 *
 * Words used below
 *   sample    What one antenna heard at one instant: a complex number of two 16-bit parts, each of any value.
 *   snapshot  The samples of all eight antennas at one instant; samples[k] is that of antenna k.
 *   sums      What `count` snapshots have added up to: for i and j from 0 to 7, the sum of sample i times the conjugate of sample
 *             j. For x + y i and u + v i, that product has the real part x u + y v and the imaginary part y u - x v. Part q of
 *             the sum, 0 real and 1 imaginary, is words[2 * (8 * i + j) + q], which is the order of the matrix record.
 *
 * The matrix
 *   Element (i, j) is the sum of sample i times the conjugate of sample j, divided by 65,536 times the count. The real and the
 *   imaginary part are worked each by itself: divided, rounded toward zero, and clamped at 32,767 from above alone. From below
 *   there is nothing to clamp: -2^31 times the count, the lowest sum within the range, gives -32,768, which stands. With samples
 *   and elements both read as Q1.15, an element is half the mean of the products.
 *   For sums added up from none, element (j, i) is the conjugate of element (i, j).
 *
 * How loud an antenna has to be
 *   hubqr_load and hubqr_whole count antenna k as heard when the real part of element (k, k) is above 16. For sums added up from
 *   none, that is when the mean of x^2 + y^2 over its samples x + y i is at least 17 * 65,536 = 1,114,112, a root mean square
 *   magnitude of 1,055.5 or about 30 dB under 32,768: an antenna is heard with samples of magnitude 1,056, and not with samples
 *   of magnitude 1,055. A record in which all antennas are quieter is written all the same; hubqr_load and hubqr_whole refuse it
 *   with number 4, HUBQR_NONE_HEARD.
 *
 * Keeping the sums
 *   The sums are 1,032 bytes of plain numbers, and the caller's own. They may be copied, kept anywhere and handed in later, to
 *   any number of calls. Each call tests them anew. They are out of range when
 *     the count is above 4,096, or
 *     one of the 128 sums is beyond 2^31 times the count, above or below; with count 0, that is any sum other than 0.
 *   Sums added up from none are never out of range. Wrong sums within the range are not noticed.
 *
 * Refusals
 *   A refused call changes nothing: adding answers the sums as they were, writing leaves the whole buffer as it was.
 */
#ifndef HUBQR_COVARIANCE_H
#define HUBQR_COVARIANCE_H

#include "hubqr_base.h"

/* Antennas of a hub, the most snapshots that are added up, and the sums: two for each of the 64 elements. */
#define HUBQR_ANTENNAS 8
#define HUBQR_SNAPSHOTS_MAX 4096
#define HUBQR_SUM_WORDS 128

#ifdef __cplusplus
extern "C" {
#endif

/* What one antenna heard at one instant. */
struct hubqr_sample {
    int16_t re; /* the real part */
    int16_t im; /* the imaginary part */
};

/* What all antennas heard at one instant. */
struct hubqr_snapshot {
    struct hubqr_sample samples[HUBQR_ANTENNAS]; /* that of antenna k at place k */
};

/* What has been added up. */
struct hubqr_sums {
    uint32_t count;                 /* how many snapshots */
    int64_t words[HUBQR_SUM_WORDS]; /* part q of element (i, j) at place 2 * (8 * i + j) + q */
};

/* No snapshot added: the count and all sums are 0. */
struct hubqr_sums hubqr_sums_none(void) HUBQR_REPLY;

/* What adding answers. */
struct hubqr_add_reply {
    uint8_t number;         /* HUBQR_ACCEPTED, or the refusal */
    struct hubqr_sums sums; /* the sums with the snapshot added; refused: those that were handed over */
};

/*
 * Add: adds a snapshot to all sums, and 1 to the count.
 * Test: 10, when 4,096 snapshots have been added already or the sums are out of range.
 */
struct hubqr_add_reply hubqr_add_snapshot(struct hubqr_snapshot snapshot, struct hubqr_sums sums) HUBQR_REPLY;

/*
 * Write: writes the matrix record of the sums into the first 257 bytes of the buffer, and no other byte. Answers the number.
 * Tests, in this order: 10, when the sums are out of range; 9, when the count is 0; 7, when the buffer has fewer than 257 bytes.
 */
uint8_t hubqr_write_matrix(struct hubqr_sums sums, uint8_t *buffer, size_t buffer_len) HUBQR_REPLY HUBQR_FILLS(2, 3);

/* Add, by pointer: the sums are changed in place, a refusal leaves them as they are. Answers the number. */
HUBQR_REPLY HUBQR_NONNULL(1)
static inline uint8_t hubqr_add_snapshot_at(struct hubqr_sums *sums, struct hubqr_snapshot snapshot)
{
    struct hubqr_add_reply reply = hubqr_add_snapshot(snapshot, *sums);
    *sums = reply.sums;
    return reply.number;
}

/* Write, by pointer: the sums are only read, and may not overlap the buffer. Answers the number. */
HUBQR_REPLY HUBQR_NONNULL(1) HUBQR_FILLS(2, 3)
static inline uint8_t hubqr_write_matrix_at(const struct hubqr_sums *sums, uint8_t *buffer, size_t buffer_len)
{
    return hubqr_write_matrix(*sums, buffer, buffer_len);
}

#ifdef __cplusplus
}
#endif

#endif
