/* Weights: those worked out by hand, to the bit, those of a matrix that was factored, and each refusal. */
#include "check.h"
#include "words.h"

#include <stdlib.h>
#include <string.h>

/* The targets and the weights have 16 parts each: eight real ones, then eight imaginary ones. */
enum { PARTS = 2 * HUBQR_ANTENNAS };

/* What a call is handed, with a byte behind the record, and the parts that it has to answer. */
static uint8_t record[HUBQR_RESULT_RECORD_BYTES + 1];
static int16_t target[PARTS];
static double due[PARTS];

/* 8192 / 3, which is rounded down: 3 times that is 2^-41 less than 8192, half a step there, and is rounded to 8192. */
static const double third = 0x1.5555555555555p+11;

/* A record with 3 on R's diagonal and one on Q's. A target part of 1 makes 2^30 / 131072 = 8192, and 8192 / 3 in the weights. */
static void begin(void)
{
    memset(record, 0, sizeof record);
    memset(target, 0, sizeof target);
    record[0] = HUBQR_KIND_RESULT;
    for (int n = 0; n < PARTS; n++) {
        set_word(record, r(n, n), 3);
        set_word(record, qt(n, n), HUBQR_Q_ONE);
        due[n] = 0.0;
    }
}

static struct hubqr_snapshot targets(void)
{
    struct hubqr_snapshot snapshot;
    for (int k = 0; k < HUBQR_ANTENNAS; k++) {
        snapshot.samples[k] = (struct hubqr_sample){target[k], target[HUBQR_ANTENNAS + k]};
    }
    return snapshot;
}

/* Makes the call on a record, which may not change, and checks the number. */
static struct hubqr_weights_reply answered(const char *what, const uint8_t *lent, size_t length, uint8_t number)
{
    uint8_t before[sizeof record];
    memcpy(before, record, sizeof before);
    struct hubqr_weights_reply reply = hubqr_weights(lent, length, targets());
    CHECK(what, reply.number == number);
    CHECK(what, memcmp(record, before, sizeof before) == 0);
    return reply;
}

/* The weights that are due, each bit of them: 0.0 and -0.0 are not the same. */
static void accept(const char *what)
{
    struct hubqr_weights_reply reply = answered(what, record, HUBQR_RESULT_RECORD_BYTES, HUBQR_ACCEPTED);
    for (int k = 0; k < HUBQR_ANTENNAS; k++) {
        CHECK(what, memcmp(&reply.weights[k].re, &due[k], sizeof *due) == 0);
        CHECK(what, memcmp(&reply.weights[k].im, &due[HUBQR_ANTENNAS + k], sizeof *due) == 0);
    }
}

/* Weights of +0.0, each byte of them. */
static void refuse(const char *what, const uint8_t *lent, size_t length, uint8_t number)
{
    static const struct hubqr_weight zeros[HUBQR_ANTENNAS];
    struct hubqr_weights_reply reply = answered(what, lent, length, number);
    CHECK(what, memcmp(reply.weights, zeros, sizeof zeros) == 0);
}

/* One part of the targets, of either sign, gives the same part of the weights and no other. */
static void test_single_parts(void)
{
    for (int n = 0; n < PARTS; n++) {
        begin();
        accept("targets of 0");
        target[n] = 1;
        due[n] = third;
        accept("a target part of 1");
        target[n] = -1;
        due[n] = -third;
        accept("a target part of -1");
    }
}

/* Each word of Q transposed: word (i, j) takes part j of the targets to part i of the weights. */
static void test_words_of_q(void)
{
    for (int i = 0; i < PARTS; i++) {
        for (int j = 0; j < PARTS; j++) {
            begin();
            set_word(record, qt(j, j), 0);
            set_word(record, qt(i, j), -HUBQR_Q_ONE);
            target[j] = 1;
            due[i] = -third;
            accept("a word of Q transposed");
        }
    }
}

/* Each word of R above the diagonal: with 3 at (i, j), part j of the weights is taken off row i, 8192 / 3 three times. */
static void test_words_of_r(void)
{
    for (int i = 0; i < PARTS; i++) {
        for (int j = i + 1; j < PARTS; j++) {
            begin();
            set_word(record, r(i, j), 3);
            target[j] = 1;
            due[j] = third;
            due[i] = -third;
            accept("a word of R above the diagonal");
            set_word(record, r(i, j), -3);
            due[i] = third;
            accept("a negative word of R above the diagonal");
        }
    }
}

/* The smallest sums and an odd one of 46 bits, (2^31 - 1) * (2^15 - 1): made a float and then divided, each loses nothing. */
static void test_right_sums(void)
{
    for (int n = 0; n < PARTS; n++) {
        begin();
        set_word(record, r(n, n), 1);
        set_word(record, qt(n, n), 1);
        target[n] = 1;
        due[n] = 0x1p-17;
        accept("a sum of 1");
        target[n] = -1;
        due[n] = -0x1p-17;
        accept("a sum of -1");
        set_word(record, qt(n, n), INT32_MAX);
        target[n] = 32767;
        due[n] = 0x3fff7fff8001p-17;
        accept("an odd sum of 46 bits");
    }
}

/*
 * Row 13 begins with 8192, from which 3 * third is taken, and then third. The product is rounded to 8192, and -third is left to
 * be divided by 3. Fused, the product would leave 2^-41 more; from the last column on, the first difference would lose a bit.
 */
static void test_order(void)
{
    begin();
    set_word(record, r(13, 14), 3);
    set_word(record, r(13, 15), 1);
    target[13] = target[14] = target[15] = 1;
    due[14] = due[15] = third;
    due[13] = -0x1.c71c71c71c71cp+9;
    accept("rising columns, each product and difference rounded");
}

/* 49 * 8192 divided by 49 is 8192, while times the rounded 1 / 49 it would be less. */
static void test_quotient(void)
{
    for (int n = 0; n < PARTS; n++) {
        begin();
        set_word(record, r(n, n), 49);
        target[n] = 49;
        due[n] = 8192.0;
        accept("divided, not multiplied by a reciprocal");
    }
}

/* Diagonal word 15 may be negative, and then 0 divided by it is -0.0. Taken off another row it leaves +0.0 there. */
static void test_negative_diagonal(void)
{
    begin();
    set_word(record, r(15, 15), -3);
    set_word(record, r(0, 15), 5);
    due[15] = -0.0;
    accept("diagonal word 15 negative, targets of 0");
    set_word(record, r(0, 15), -3);
    target[15] = 1;
    due[15] = due[0] = -third;
    accept("diagonal word 15 negative, a target part of 1");
}

/*
 * The largest sums, 16 * 2^31 * 2^15 = 2^50, give 2^33 on the right. With 1 on the diagonal and -2^31 above it, each row is
 * 2^31 + 1 times the one below it, but for rounding.
 */
static void test_largest(void)
{
    begin();
    for (int k = 0; k < PARTS * PARTS; k++) {
        int row = k / PARTS, column = k % PARTS;
        set_word(record, k, column < row ? 0 : column == row ? 1 : INT32_MIN);
        set_word(record, qt(row, column), INT32_MIN);
        target[column] = -32768;
    }
    struct hubqr_weights_reply reply = answered("largest words", record, HUBQR_RESULT_RECORD_BYTES, HUBQR_ACCEPTED);
    CHECK("the last row", reply.weights[7].im == 0x1p+33);
    CHECK("the row above it", reply.weights[6].im == 0x1.00000002p+64);
    CHECK("the first row", reply.weights[0].re > 0x1p+498 && reply.weights[0].re < 0x1.000001p+498);
}

/* A matrix record with one half on the diagonal. */
static void make_half(uint8_t matrix[HUBQR_MATRIX_RECORD_BYTES])
{
    make_equal(matrix, 0);
    for (int k = 0; k < HUBQR_ANTENNAS; k++) {
        set_element(matrix, k, k, 16384, 0);
    }
}

/* Factors a matrix, and compares the weights that it gives for the targets with those that are due. */
static void weigh(const char *what, const uint8_t matrix[HUBQR_MATRIX_RECORD_BYTES])
{
    struct hubqr_whole_reply factored =
        hubqr_whole(matrix, HUBQR_MATRIX_RECORD_BYTES, area, AREA_LENT, record, HUBQR_RESULT_RECORD_BYTES);
    CHECK(what, factored.number == HUBQR_ACCEPTED);
    struct hubqr_weights_reply reply = answered(what, record, HUBQR_RESULT_RECORD_BYTES, HUBQR_ACCEPTED);
    for (int n = 0; n < PARTS; n++) {
        const struct hubqr_weight *weight = &reply.weights[n % HUBQR_ANTENNAS];
        double error = (n < HUBQR_ANTENNAS ? weight->re : weight->im) - due[n];
        CHECK(what, error < 0.0001 && error > -0.0001);
    }
}

/* With one half on the diagonal, a target of 0.25 - 0.125i gives a weight of 0.5 - 0.25i. */
static void test_factored(void)
{
    uint8_t matrix[HUBQR_MATRIX_RECORD_BYTES];
    make_half(matrix);
    for (int k = 0; k < HUBQR_ANTENNAS; k++) {
        begin();
        target[k] = 8192;
        target[HUBQR_ANTENNAS + k] = -4096;
        due[k] = 0.5;
        due[HUBQR_ANTENNAS + k] = -0.25;
        weigh("one half on the diagonal", matrix);
    }
}

/* With i/2 at (2, 5) as well, weights of 0.5 and 0.25 - 0.5i make 0.25 + i (0.125 - 0.25i) = 0.5 + 0.125i of row 2. */
static void test_imaginary_element(void)
{
    uint8_t matrix[HUBQR_MATRIX_RECORD_BYTES];
    make_half(matrix);
    set_element(matrix, 2, 5, 0, 16384);
    begin();
    target[2] = 16384;
    target[HUBQR_ANTENNAS + 2] = 4096;
    target[5] = 4096;
    target[HUBQR_ANTENNAS + 5] = -8192;
    due[2] = 0.5;
    due[5] = 0.25;
    due[HUBQR_ANTENNAS + 5] = -0.5;
    weigh("an imaginary element off the diagonal", matrix);
}

/* Kind, then length, whatever the words: of records that would be accepted, and of those with a diagonal of 0. */
static void test_header(void)
{
    uint8_t matrix[HUBQR_MATRIX_RECORD_BYTES];
    make_matrix(matrix);
    for (int diagonal = 0; diagonal <= 3; diagonal += 3) {
        begin();
        set_word(record, r(7, 7), diagonal);
        target[0] = 1;
        refuse("a null record", NULL, 0, HUBQR_WRONG_KIND);
        refuse("an empty record", record, 0, HUBQR_WRONG_KIND);
        refuse("a matrix record", matrix, sizeof matrix, HUBQR_WRONG_KIND);
        refuse("1 byte", record, 1, HUBQR_WRONG_LENGTH);
        refuse("257 bytes", record, HUBQR_MATRIX_RECORD_BYTES, HUBQR_WRONG_LENGTH);
        refuse("2,048 bytes", record, HUBQR_RESULT_RECORD_BYTES - 1, HUBQR_WRONG_LENGTH);
        refuse("2,050 bytes", record, HUBQR_RESULT_RECORD_BYTES + 1, HUBQR_WRONG_LENGTH);
        record[0] = HUBQR_KIND_REFUSAL;
        refuse("kind 03", record, HUBQR_RESULT_RECORD_BYTES, HUBQR_WRONG_KIND);
        refuse("kind 03, 2,048 bytes", record, HUBQR_RESULT_RECORD_BYTES - 1, HUBQR_WRONG_KIND);
    }
}

/* Each word of R that may not be, with another one that is 0 on the diagonal and without: 8 comes before 11. */
static void test_not_triangular(void)
{
    for (int k = 0; k < PARTS * PARTS; k++) {
        int row = k / PARTS, column = k % PARTS;
        if (column > row || k == r(15, 15)) {
            continue;
        }
        begin();
        target[0] = 1;
        set_word(record, k, column < row ? 1 : -1);
        refuse("a word of R that may not be", record, HUBQR_RESULT_RECORD_BYTES, HUBQR_NOT_TRIANGULAR);
        set_word(record, r(15, 15), 0);
        refuse("such a word and a diagonal word of 0", record, HUBQR_RESULT_RECORD_BYTES, HUBQR_NOT_TRIANGULAR);
    }
}

/* Each diagonal word alone, and all of them. Words above the diagonal and of Q do not make up for it. */
static void test_zero_diagonal(void)
{
    for (int n = 0; n < PARTS; n++) {
        begin();
        target[0] = 1;
        set_word(record, r(n, n), 0);
        refuse("a diagonal word of 0", record, HUBQR_RESULT_RECORD_BYTES, HUBQR_ZERO_DIAGONAL);
        set_word(record, r(0, 15), 1);
        refuse("a diagonal word of 0 and one above it", record, HUBQR_RESULT_RECORD_BYTES, HUBQR_ZERO_DIAGONAL);
    }
    memset(record + 1, 0, sizeof record - 1);
    refuse("a record of zeros", record, HUBQR_RESULT_RECORD_BYTES, HUBQR_ZERO_DIAGONAL);
}

/* A block of exactly the record's size on the heap, where valgrind sees a step past its end. */
static void test_exact_block(void)
{
    uint8_t *block = malloc(HUBQR_RESULT_RECORD_BYTES);
    CHECK("memory for the exact size", block != NULL);
    begin();
    target[15] = 1;
    memcpy(block, record, HUBQR_RESULT_RECORD_BYTES);
    struct hubqr_weights_reply reply = hubqr_weights(block, HUBQR_RESULT_RECORD_BYTES, targets());
    CHECK("2,049 bytes", reply.number == HUBQR_ACCEPTED && reply.weights[7].im == third);
    CHECK("2,049 bytes stay", memcmp(block, record, HUBQR_RESULT_RECORD_BYTES) == 0);
    free(block);
}

void test_weights(void)
{
    test_single_parts();
    test_words_of_q();
    test_words_of_r();
    test_right_sums();
    test_order();
    test_quotient();
    test_negative_diagonal();
    test_largest();
    test_factored();
    test_imaginary_element();
    test_header();
    test_not_triangular();
    test_zero_diagonal();
    test_exact_block();
}
