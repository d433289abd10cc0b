/*
 * SPDX-License-Identifier: Apache-2.0
 *
 * hubqr_verify.h - matrix record and result record in, yes or no out: checks Q and R of a result against the matrix that they are
 * said to factor, whoever wrote the result. Boards that factor by themselves write result records of their own, which are right
 * without being bit for bit those of this library. A hub can check each result before it is used, its own ones too. hubqr.h
 * includes this header, and what it says on replies, ownership, threads, aliasing, null, lengths and versions holds here as well.
 *
 * Use
 *   For each result:  hubqr_verify, with the matrix record that the result is for. Look at `number` first: a call that is refused
 *                     has said neither yes nor no.
 *
 * The rule
 *   A is the matrix made real, 16 by 16: with real part re and imaginary part im of element (i, j) of the matrix record, for i
 *   and j from 0 to 7, A(i, j) and A(i + 8, j + 8) are re, A(i + 8, j) is im, and A(i, j + 8) is -im. Behind the kind byte of the
 *   result record, R(i, j) is word 16 * i + j, and Q(i, j) is word 256 + 16 * j + i, since Q stands there transposed.
 *   The answer is yes exactly if for all i and j from 0 to 15, 256 pairs in each line,
 *     Q(i, 0) * R(0, j) + .. + Q(i, 15) * R(15, j)  lies within 2^44 of 2^43 * A(i, j), and
 *     Q(i, 0) * Q(j, 0) + .. + Q(i, 15) * Q(j, 15)  lies within 2^44 of 2^60 where i is j, and of 0 where it is not.
 *   Off by 2^44 is within it, above and below, and off by one more is not. The sums are exact whole numbers, whatever the words
 *   are: 32-bit words make sums of up to 2^66 in magnitude, which 64 bits do not hold, and these are right as well.
 *   So Q times R is the input within two steps of its 16 bits. With 2^30 read as one, each row of Q has length one and any two
 *   are at right angles, within 2^-16 in each sum of products. Test 8 sees to it that R is upper triangular and that its first
 *   fifteen diagonal words are not negative.
 *
 * Which record is refused
 *   All tests of the matrix come before those of the result, so that a matrix in which no antenna was heard is refused with 4,
 *   whatever is handed over as its result. 4 is always about the matrix and 8 about the result. For 1 and 2 the number does not
 *   tell which of the two records it is about.
 *
 * What is proved
 *   Number and answer are those of the tests and the rule, on all input.
 *   What this library writes for a matrix gets yes with that matrix: the record of a hubqr_whole that was accepted; that of a
 *   hubqr_fetch from an area that hubqr_load filled and that was worked in step; and that of a hubqr_desk_fetch, by the operator
 *   or by a fitter, from a sector that was loaded, with the matrix that its job was loaded from, on the terms on which
 *   hubqr_desk.h gives a fetched result its bounds.
 *
 * What a yes does not say
 *   That R has the lengths and angles of the input's columns within the bound that hubqr.h gives under "R without Q". Records of
 *   this library have it; that is no part of the rule, and R of another board may keep lengths and angles less well.
 *   That the result is the one that this library writes for the matrix, bit for bit: others get yes as well. Nor that it is a
 *   result of this matrix alone: with one that differs by a step or two it may get yes too.
 *   That hubqr_weights accepts it: a diagonal word of R may be 0.
 *   That the matrix is what the antennas heard.
 *
 * Time
 *   A call takes less time than a hubqr_whole that makes all 120 turns, so that a hub has the time to check every result. Where
 *   most turns are clear, hubqr_whole can be the quicker one. docs/BENCHMARKS.md has figures.
 *
 * Refusals
 *   A refused call answers `yes` 0, which is then no answer. Both records are only read, in every case.
 */
#ifndef HUBQR_VERIFY_H
#define HUBQR_VERIFY_H

#include "hubqr_base.h"

#ifdef __cplusplus
extern "C" {
#endif

/* What checking a result answers. */
struct hubqr_verdict {
    uint8_t number; /* HUBQR_ACCEPTED, or the refusal */
    uint8_t yes;    /* 1 for yes, 0 for no; refused: 0, which is neither */
};

/*
 * Verify: says whether a result record is right for a matrix record, by the rule above. The two may overlap each other.
 * Tests, in this order: 1, 2, 4, of the matrix; 1, 2, 8, of the result.
 */
struct hubqr_verdict hubqr_verify(const uint8_t *matrix, size_t matrix_len, const uint8_t *result, size_t result_len)
    HUBQR_REPLY HUBQR_READS(1, 2) HUBQR_READS(3, 4);

#ifdef __cplusplus
}
#endif

#endif
