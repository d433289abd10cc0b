/*
 * SPDX-License-Identifier: Apache-2.0
 *
 * hubqr.h - QR factorization of the 8 by 8 complex matrix that a radio hub's eight antennas heard, by Givens rotations with
 * CORDIC steps in fixed point. Link with libhubqr.a; nothing else is needed. The archive is for x86-64 Linux (ELF) and for no
 * other machine, since the Rattle kit, which proves and compiles it, builds for no other.
 *
 * Use
 *   From snapshots:  hubqr_covariance.h, which this header includes, adds up what the antennas heard and writes a matrix record.
 *   In one call:     hubqr_whole.
 *   In instalments:  hubqr_load, then hubqr_run while job.turn < HUBQR_TURNS, then hubqr_fetch.
 *   Later on:        hubqr_read brings a result record back into an area.
 *   For weights:     hubqr_weights.h, which this header includes as well, works out from a result record what the antennas are
 *                    weighted with.
 *   For boards:      hubqr_verify.h, which this header also includes, says yes or no to a result record for a matrix, whether a
 *                    board that factors by itself wrote it or one of the calls here.
 *   For sectors:     hubqr_desk.h, which this header includes too, serves eight sectors, each with an area and a share of its
 *                    own of the turns of a round, 120 at most. The next matrix of a sector may be handed in early. Each call is
 *                    made for a role: a viewer is answered the heard byte and nothing else, a fitter gets the result record too,
 *                    and the operator may make every call.
 *   For a log:       hubqr_log.h, which this header includes besides, keeps results, refusals and heard bytes in a lent buffer,
 *                    for seven, thirty and ninety days.
 *
 * Records (numbers are two's complement, high byte first)
 *   Matrix record, 257 bytes:    HUBQR_KIND_MATRIX, then 64 elements row by row, each a 16-bit real part and a 16-bit imaginary
 *                                part. They are Q1.15: the whole number a stands for a / 32768. Column k belongs to antenna k.
 *   Result record, 2,049 bytes:  HUBQR_KIND_RESULT, then R (256 words of 32 bits, row by row), then Q transposed (256 words).
 *   Refusal record, 2 bytes:     HUBQR_KIND_REFUSAL, then the refusal number. The program `qr` writes it; no call here does.
 *
 * The area
 *   512 words of 32 bits, 16 rows of 32 columns. The complex matrix is worked as a real one of 16 by 16: real parts upper left
 *   and lower right, imaginary parts lower left, their negatives upper right. At turn number 120, for i and j from 0 to 15:
 *     R(i, j) is area[32 * i + j];        one in Q1.15 is HUBQR_R_ONE, so one step of the 16-bit input is 2^13
 *     Q(i, j) is area[32 * j + 16 + i];   one is HUBQR_Q_ONE
 *   R is upper triangular, its first fifteen diagonal words are not negative, and Q times R is 2^43 times the input, within 2^44,
 *   which is two steps of the 16-bit input.
 *
 * R without Q
 *   R has the lengths and angles of the input's columns: for any i and j the sum of R(k, i) * R(k, j) over k, which 64 bits
 *   hold, is 2^26 times the same sum over the real input, within 2^44. That is the square of 512 steps of the 16-bit input, so
 *   little is said of columns that are shorter. With i = j the sum is the square of a length, and R(0, 0) is a length itself:
 *   2^13 times that of the input's first column, within 2^22, and the nearer the longer the column is, since the squares of the
 *   two differ by at most 2^44. Antenna k has columns k and 8 + k. So the product of antennas i and j, the sum over the 8 rows of
 *   the conjugate of antenna i's element times antenna j's, is found in R as well: times 2^26, and within 2^44, its real part is
 *   the sum for columns i and j, and its imaginary part that for columns 8 + i and j.
 *
 * Words used below
 *   turn         One of the 120 rotations of two rows that make R and Q of a loaded matrix. Each makes its lower leading word 0.
 *                Where that word is 0 already and the upper leading word is 0 or more, the turn is clear: it is skipped, and
 *                leaves both rows as they are.
 *   job          How far the work on an area is. `turn`, the turn number, says how many of the 120 turns are done, the skipped
 *                ones included: 0 after hubqr_load, 120 when R and Q are finished. `made` says how many turns were truly made
 *                since hubqr_load. That is what the work really cost: at most 120, for any matrix, and fewer where turns were
 *                clear. hubqr_read answers the job (120, 0), since a result record does not tell what it cost.
 *                The caller keeps the job beside the area and hands it to the next call; the area does not hold it. An area is
 *                worked in step when each call is handed the job last answered for it. Another one is not noticed, unless test 5
 *                sees it: another turn number makes the words worthless, and another `made` the count of turns made.
 *   allowance    The most turns that one hubqr_run may go on by, the skipped ones included.
 *   clamps       How many words were cut to the 32-bit range, by side, since a cut word of Q harms the beam differently from one
 *                of R: `clamps_r` counts those of columns 0 to 15, which hold R, and `clamps_q` those of columns 16 to 31, which
 *                hold Q. Both are always 0 for an area that hubqr_load filled and that was worked in step; they are not 0 only
 *                for words that came from elsewhere.
 *   heard byte   Bit k (value 2^k) is set when antenna k was heard: when the real part of element (k, k) of the complex matrix is
 *                above HUBQR_HEARD_ABOVE, which is 16. Nothing else of the matrix counts, neither the imaginary parts nor the
 *                elements off the diagonal, and a negative real part is not above 16. An antenna that was not heard is factored
 *                like the others. A matrix in which none was heard is refused with number 4, whatever else it holds, so the
 *                heard byte of a loaded matrix is never 0.
 *
 * Replies and refusals
 *   A call answers by value: a struct, or the number alone where there is nothing else to answer. Each call tests what it is
 *   handed, in the order given with it. The reply's `number` is that of the first test that fails, or HUBQR_ACCEPTED. A refused
 *   call changes no word of the area and no byte of the buffer, and the other fields of its reply are 0, except that hubqr_run
 *   answers the job it was handed, hubqr_add_snapshot the sums, and each call of hubqr_desk.h the desk. A log's used count is no
 *   exception: a refused call answers 0, and hubqr_log.h says why that 0 must not be kept. hubqr_base.h, which all headers
 *   include, lists the refusals; hubqr_refusal_words says a number in words.
 *
 * Ownership and threads
 *   The caller owns every record, body, area and buffer, before, during and after a call. The library keeps no pointer, has no
 *   state of its own and allocates nothing. All calls are reentrant: threads may call at the same time on different areas and
 *   buffers, and may share a record or a body, since these are only read, and for hubqr_log_next, which only reads it, a log's
 *   buffer. While a call lasts nobody else may write to what it was lent.
 *
 * Aliasing
 *   The record, the area and the buffer that are lent to a call may not overlap each other, nor may the body and the buffer that
 *   hubqr_log_add is lent. The two records that hubqr_verify is lent may, since nothing is written.
 *
 * Null
 *   A record, a body, an area and a buffer may be null exactly when their length is 0; nothing is then read or written through
 *   the pointer and the call is refused. But a buffer of length 0 with used count 0 is a log without entries, which
 *   hubqr_log_sweep and hubqr_log_next accept.
 *
 * Lengths
 *   Lengths are true lengths: bytes for records, bodies and buffers, words for areas. An area may be longer than
 *   HUBQR_AREA_WORDS and a buffer longer than the record that is written into it; what lies behind is neither read nor written.
 *   The buffer of a log is lent whole, and its bytes behind the used ones are not read. A record and a body have to have exactly
 *   their length. Compilers that know the attribute `access`, as gcc does, report a length that the object behind the pointer
 *   does not have, where they can see the object: `sizeof area` handed over for words, for instance.
 *
 * Versions
 *   Headers and archive have to be of one version, since another one may have other fields in its replies. A host that is not
 *   sure which archive it was linked with compares hubqr_version() with HUBQR_VERSION.
 */
#ifndef HUBQR_H
#define HUBQR_H

#include "hubqr_base.h"
#include "hubqr_covariance.h"
#include "hubqr_desk.h"
#include "hubqr_log.h"
#include "hubqr_verify.h"
#include "hubqr_weights.h"

/* An antenna is heard when its real part on the diagonal is above this: a loose plug leaves a part of one or two. */
#define HUBQR_HEARD_ABOVE 16

/* The area's shape, which makes its HUBQR_AREA_WORDS words. */
#define HUBQR_AREA_ROWS 16
#define HUBQR_AREA_COLUMNS 32

/* What stands for one in the words of R (2^28) and of Q (2^30). */
#define HUBQR_R_ONE INT32_C(268435456)
#define HUBQR_Q_ONE INT32_C(1073741824)

#ifdef __cplusplus
extern "C" {
#endif

/* What Load answers. */
struct hubqr_load_reply {
    uint8_t number;       /* HUBQR_ACCEPTED, or the refusal */
    uint8_t heard;        /* the heard byte, which is not 0; refused: 0 */
    struct hubqr_job job; /* the job to hand to the next call, which is (0, 0) */
};

/*
 * Load: fills the area's 512 words from a matrix record.
 * Tests, in this order: 1, 2, 3, 4.
 */
struct hubqr_load_reply hubqr_load(const uint8_t *record, size_t record_len, int32_t *area, size_t area_len)
    HUBQR_REPLY HUBQR_READS(1, 2) HUBQR_FILLS(3, 4);

/* What Run answers. */
struct hubqr_run_reply {
    uint8_t number;       /* HUBQR_ACCEPTED, or the refusal */
    struct hubqr_job job; /* the job to hand to the next call; refused: the one that was handed over */
    uint32_t count;       /* the turns that this call went on by, the skipped ones included */
    uint32_t clamps_r;    /* the clamps counted in this call in columns 0 to 15, which hold R */
    uint32_t clamps_q;    /* the clamps counted in this call in columns 16 to 31, which hold Q */
};

/*
 * Run: goes on by the smaller of `allowance` and 120 - `job.turn` turns, from turn number `job.turn` on. It makes those that are
 * not clear and skips the others. The turn number grows by `count`, which includes the skipped turns, and `made` by the turns
 * made. Allowance 0 and turn number 120 are no errors: no turn is made. Many Runs make of the area and of the job what one Run
 * with the sum of their allowances makes of them.
 * Tests, in this order: 3, 5, when `job.turn` is above 120 or `job.made` above `job.turn`.
 */
struct hubqr_run_reply hubqr_run(struct hubqr_job job, uint16_t allowance, int32_t *area, size_t area_len)
    HUBQR_REPLY HUBQR_CHANGES(3, 4);

/* Run, by pointer: the job is changed in place, a refusal leaves it as it is. It may not overlap the area. */
HUBQR_REPLY HUBQR_NONNULL(1) HUBQR_CHANGES(3, 4)
static inline struct hubqr_run_reply hubqr_run_at(struct hubqr_job *job, uint16_t allowance, int32_t *area, size_t area_len)
{
    struct hubqr_run_reply reply = hubqr_run(*job, allowance, area, area_len);
    *job = reply.job;
    return reply;
}

/*
 * Fetch: writes the result record into the first 2,049 bytes of the buffer. The area is only read. Answers the number.
 * Tests, in this order: 3, 5, 6, 7, 8. Test 8 never fails on an area that was loaded and worked in step.
 */
uint8_t hubqr_fetch(struct hubqr_job job, const int32_t *area, size_t area_len, uint8_t *buffer, size_t buffer_len)
    HUBQR_REPLY HUBQR_READS(2, 3) HUBQR_FILLS(4, 5);

/* What Read answers. */
struct hubqr_read_reply {
    uint8_t number;       /* HUBQR_ACCEPTED, or the refusal */
    struct hubqr_job job; /* the job to hand to the next call, which is (120, 0); refused: (0, 0) */
};

/*
 * Read: fills the area's 512 words from a result record. A Fetch from that area writes the same record again.
 * Tests, in this order: 1, 2, 3, 8.
 */
struct hubqr_read_reply hubqr_read(const uint8_t *record, size_t record_len, int32_t *area, size_t area_len)
    HUBQR_REPLY HUBQR_READS(1, 2) HUBQR_FILLS(3, 4);

/* What Whole answers. */
struct hubqr_whole_reply {
    uint8_t number;    /* HUBQR_ACCEPTED, or the refusal */
    uint8_t heard;     /* the heard byte, which is not 0; refused: 0 */
    uint32_t clamps_r; /* the clamps counted in columns 0 to 15, which are 0 */
    uint32_t clamps_q; /* the clamps counted in columns 16 to 31, which are 0 */
};

/*
 * Whole: Load, all 120 turns and Fetch in one call. R and Q are left in the area as well.
 * Tests, in this order: 1, 2, 3, 7, 4.
 */
struct hubqr_whole_reply hubqr_whole(const uint8_t *record, size_t record_len, int32_t *area, size_t area_len, uint8_t *buffer,
                                     size_t buffer_len)
    HUBQR_REPLY HUBQR_READS(1, 2) HUBQR_FILLS(3, 4) HUBQR_FILLS(5, 6);

#ifdef __cplusplus
}
#endif

#endif
