/* Verify: which part and which word counts by how much, each limit met and passed by one, and sums that pass 64 bits. */
#include "verdicts.h"

#include <string.h>

/* Each part of the matrix counts, above and below: two steps are 2^44, and three are too much. */
static void test_parts(void)
{
    for (int n = 0; n < 128; n++) {
        int row = n / 16, column = n / 2 % 8, half = row == column ? HALF : 0;
        for (int steps = -3; steps <= 3; steps++) {
            begin_with(0, 7);
            set_element(matrix, row, column, (int16_t)(half + (n % 2 == 0 ? steps : 0)), (int16_t)(n % 2 == 0 ? 0 : steps));
            (steps == -3 || steps == 3 ? is_no : is_yes)("a part of the matrix");
        }
    }
}

/* Each word of R counts: times 2^30, which Q has on its diagonal, 2^14 is 2^44. */
static void test_words_of_r(void)
{
    for (int k = 0; k < ORDER * ORDER; k++) {
        int i = k / ORDER, j = k % ORDER;
        for (int32_t sign = -1; j >= i && sign <= 1; sign += 2) {
            int32_t word = i == j ? R_HALF : 0;
            begin_with(0, 7);
            set_r(i, j, word + sign * 16384);
            is_yes("a word of R at its limit");
            set_r(i, j, word + sign * 16385);
            is_no("a word of R beyond it");
        }
    }
}

/*
 * Each word of Q counts. Off the diagonal 2^14 times 2^30 is 2^44. On it, 2^30 + d has the square 2^60 + 2^31 d + d^2, which is
 * beyond the limit above for d = 2^13, and within the one below for d = -2^13.
 */
static void test_words_of_q(void)
{
    for (int k = 0; k < ORDER * ORDER; k++) {
        int i = k / ORDER, j = k % ORDER;
        for (int32_t sign = -1; sign <= 1; sign += 2) {
            int32_t word = i == j ? HUBQR_Q_ONE : 0, last = i != j ? 16384 : sign > 0 ? 8191 : 8192;
            begin_with(0, 7);
            set_q(i, j, word + sign * last);
            is_yes("a word of Q within its limit");
            set_q(i, j, word + sign * (last + 1));
            is_no("a word of Q beyond it");
        }
    }
}

/*
 * An entry of two steps, where Q times R has 0, is at its limit. A product of 1 passes it by one, and one of -1 goes back. The
 * antenna that is heard has other rows.
 */
static void test_product(int i, int j, int sign)
{
    int heard = i % 8 == 2 ? 3 : 2, k = i == 0 ? 1 : 0;
    begin_with(heard, heard);
    set_entry(i, j, (int16_t)(-2 * sign));
    is_yes("an entry of Q times R at its limit");
    set_r(k, j, 1);
    set_q(i, k, sign);
    is_no("an entry of Q times R beyond it by one");
    set_q(i, k, -sign);
    is_yes("an entry of Q times R within it by one");
}

/*
 * Entry (0, 0) of Q times R is Q(0, 0) * R(0, 0) alone. The first column of the matrix is a, b, 0, .., and Q turns rows 0 and 1,
 * so that cosine times length is 2^43 * (a + 2) + 1 for sign 1, and 2^43 * (a - 2) - 1 for sign -1. Rows 8 and 9, for which the
 * same elements stand, are made alike, with a length that is nearer by one.
 */
static void test_first_product(int sign)
{
    int32_t cosine = sign > 0 ? 1073608271 : 1073714631, sine = sign > 0 ? 16934729 : 7641713;
    int32_t length = sign > 0 ? 264855727 : 40789001;
    begin_with(0, 0);
    set_entry(0, 0, sign > 0 ? 32325 : 4981);
    set_entry(1, 0, sign > 0 ? 510 : 35);
    for (int n = 0; n < ORDER; n += 8) {
        set_q(n, n, cosine);
        set_q(n, n + 1, -sine);
        set_q(n + 1, n, sine);
        set_q(n + 1, n + 1, cosine);
        set_r(n, n, length - sign);
    }
    is_yes("entry (0, 0) of Q times R within its limit");
    set_r(0, 0, length);
    is_no("entry (0, 0) of Q times R beyond it by one");
}

/* Rows i and j of Q with the sum of products 2^14 * 2^30, which is the limit, and then with a product of 1 or -1 besides. */
static void test_rows(int i, int j, int sign)
{
    int k = 0;
    while (k == i || k == j) {
        k++;
    }
    begin_with(0, 7);
    set_q(i, j, sign * 16384);
    is_yes("two rows of Q at their limit");
    set_q(i, k, 1);
    set_q(j, k, sign);
    is_no("two rows of Q beyond it by one");
    set_q(j, k, -sign);
    is_yes("two rows of Q within it by one");
}

/*
 * Makes 2^60 + excess the sum of squares of row i of Q. Its diagonal word leaves a rest, and the others make up for it: they are
 * at most 2^14, so that the products with other rows are within their limits.
 */
static void set_squares(int i, int64_t excess)
{
    int64_t d = excess > 0 ? 8191 : -8193, rest = excess - (INT64_C(1) << 31) * d - d * d;
    set_q(i, i, (int32_t)(HUBQR_Q_ONE + d));
    for (int k = 0; k < ORDER; k++) {
        if (k != i) {
            int32_t word = 16384;
            while (word * (int64_t)word > rest) {
                word--;
            }
            set_q(i, k, word);
            rest -= word * (int64_t)word;
        }
    }
    CHECK("squares make up for the rest", rest == 0);
}

static void test_squares(int i, int sign)
{
    int64_t limit = INT64_C(1) << 44;
    begin_with(0, 7);
    set_squares(i, sign * limit);
    is_yes("a row of Q with itself at its limit");
    set_squares(i, sign * (limit + 1));
    is_no("a row of Q with itself beyond it by one");
    set_squares(i, sign * (limit - 1));
    is_yes("a row of Q with itself within it by one");
}

/* All 256 pairs of both kinds, each above and below. */
static void test_pairs(void)
{
    for (int k = 0; k < ORDER * ORDER; k++) {
        int i = k / ORDER, j = k % ORDER;
        for (int sign = -1; sign <= 1; sign += 2) {
            if (k == 0) {
                test_first_product(sign);
            } else {
                test_product(i, j, sign);
            }
            if (i == j) {
                test_squares(i, sign);
            } else {
                test_rows(i, j, sign);
            }
        }
    }
}

/*
 * Five rows of Q have -2^30 on the diagonal and -2^31 in the four places beside it. Each has the sum of squares 2^60 + 2^64, and
 * any two have the sum of products 2^64, so that modulo 2^64 nothing is wrong. With this word five times in a column of R, Q
 * times R is wrong as well, and modulo 2^64 is not: for -1908875264 it is 9 * 2^30 * 1908875264 = 2^64 + 2^43 where 0 is due.
 */
static void test_modulo(int first, int32_t word)
{
    begin_with(7, 7);
    for (int i = first; i < first + 5; i++) {
        for (int k = first; k < first + 5; k++) {
            set_q(i, k, i == k ? -HUBQR_Q_ONE : INT32_MIN);
        }
        set_r(i, 14, word);
    }
    is_no("sums that are right modulo 2^64");
}

/* All words of Q, and of R those that may be negative, have these bits: the largest sums are 16 * 2^31 * 2^31 = 2^66. */
static void test_extremes(int32_t q, int32_t above)
{
    begin_with(0, 7);
    for (int k = 0; k < ORDER * ORDER; k++) {
        int i = k / ORDER, j = k % ORDER;
        set_q(i, j, q);
        set_r(i, j, j < i ? 0 : j == i && i < 15 ? INT32_MAX : above);
    }
    is_no("words at the ends of their range");
}

void test_limits(void)
{
    test_parts();
    test_words_of_r();
    test_words_of_q();
    test_pairs();
    for (int first = 0; first <= 2; first++) {
        test_modulo(first, 0);
        test_modulo(first, -1908875264);
    }
    test_extremes(INT32_MIN, INT32_MIN);
    test_extremes(INT32_MIN, INT32_MAX);
    test_extremes(INT32_MAX, INT32_MIN);
    test_extremes(INT32_MAX, INT32_MAX);
}
