/*
 * SPDX-License-Identifier: Apache-2.0
 *
 * hubqr_weights.h - result record and targets in, weights out: works out the complex numbers that a modem weights a radio hub's
 * eight antennas with, from the result record that hubqr_whole and hubqr_fetch write. hubqr.h includes this header, and what it
 * says on replies, ownership, threads, aliasing, null, lengths and versions holds here as well.
 *
 * Use
 *   For each list of eight targets:  hubqr_weights. The record is only read, so one serves for any number of lists.
 *
 * Words used below
 *   target  What a row of the matrix times the weights has to give: a complex number of two 16-bit parts, each of any value. They
 *           are Q1.15: 32768 stands for one. The eight are handed over as a snapshot; samples[k] is that of row k.
 *   weight  What one antenna is weighted with: a complex number of two doubles, in which 1.0 is one. weights[k] is that of
 *           antenna k, to which column k of the matrix belongs.
 *
 * What the weights solve
 *   A w = t, where A is the 8 by 8 complex matrix that was factored, its elements read as Q1.15, t the targets and w the weights.
 *   Q and R stand for A made real, 16 by 16. So what is solved is R x = Q transposed times t, with x and t of 16 real numbers:
 *   the eight real parts, then the eight imaginary parts. One is 2^28 in R, 2^30 in Q and 2^15 in t, so the sums of products on
 *   the right are divided by 2^17 = 131,072, which gives them the scale of R.
 *
 * The rule
 *   Behind the kind byte, R(i, j) is word 16 * i + j of the record, and QT(i, j), of Q transposed, is word 256 + 16 * i + j. For
 *   j from 0 to 7, t[j] is targets.samples[j].re, and t[j + 8] is targets.samples[j].im. Then, in this order and no other:
 *     for i from 15 down to 0
 *         sum = QT(i, 0) * t[0] + .. + QT(i, 15) * t[15]    exact, a whole number of at most 2^50 in magnitude
 *         s = sum / 131072.0                                exact as well, and +0.0 for a sum of 0
 *         for j from i + 1 up to 15
 *             s = s - R(i, j) * x[j]                        the product is rounded, then the difference
 *         x[i] = s / R(i, i)                                the quotient is rounded
 *   weights[k].re is x[k], and weights[k].im is x[k + 8]. All but `sum` are IEEE 754 numbers of 64 bits, and R's words become
 *   such numbers as they are, unscaled and exact. Each operation is rounded by itself, to the nearest and between two to even; a
 *   product is never fused with a difference. A host that works the weights out again gets the same bits, if its compiler fuses
 *   nothing either: `#pragma STDC FP_CONTRACT OFF`, or gcc's -ffp-contract=off.
 *
 * What is proved, and what is not
 *   Every bit is that of the rule, on all input. No part of a weight is a NaN or infinite: for every record that is accepted and
 *   all targets, each is at most 2^786 in magnitude. A part can be -0.0: weights[7].im is, when R(15, 15) is negative and the sum
 *   of row 15 is 0.
 *   How near the weights are to the exact solution is not promised, since that depends on the matrix. A diagonal word of R that
 *   is small beside the others says that the matrix is nearly singular, as it is when an antenna hears nothing or two antennas
 *   hear the same. The weights then get large, and small errors of the matrix make large ones of them. Of such words none but 0
 *   is refused.
 *
 * The floating-point environment
 *   The call assumes that of every C program when it begins: rounding to the nearest, no flush-to-zero, no exception trapped. It
 *   neither tests nor sets it. A host that has called fesetround, or that is linked with gcc's -ffast-math, has another one. The
 *   call may raise the flag of an inexact result.
 *
 * Refusals
 *   A refused call answers weights of +0.0 in all 16 parts, so that their bytes are all 0.
 */
#ifndef HUBQR_WEIGHTS_H
#define HUBQR_WEIGHTS_H

#include "hubqr_base.h"
#include "hubqr_covariance.h"

#ifdef __cplusplus
extern "C" {
#endif

/* What one antenna is weighted with. */
struct hubqr_weight {
    double re; /* the real part */
    double im; /* the imaginary part */
};

/* What working out the weights answers. */
struct hubqr_weights_reply {
    uint8_t number;                              /* HUBQR_ACCEPTED, or the refusal */
    struct hubqr_weight weights[HUBQR_ANTENNAS]; /* that of antenna k at place k; refused: +0.0 in all parts */
};

/*
 * Weights: works out the weights that a result record gives for eight targets, that of row k at place k.
 * Tests, in this order: 1, 2, 8, 11, when one of the 16 diagonal words is 0.
 */
struct hubqr_weights_reply hubqr_weights(const uint8_t *record, size_t record_len, struct hubqr_snapshot targets)
    HUBQR_REPLY HUBQR_READS(1, 2);

#ifdef __cplusplus
}
#endif

#endif
