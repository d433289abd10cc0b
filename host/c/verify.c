/* Verify: results of the engine, at the desk too, results of others, and each refusal. */
#include "sectors.h"
#include "verdicts.h"

#include <stdlib.h>
#include <string.h>

/* What Whole writes for the matrix, and what Load, Runs and Fetch write, gets yes. */
static void test_engine(const char *what)
{
    struct hubqr_whole_reply factored = hubqr_whole(matrix, HUBQR_MATRIX_RECORD_BYTES, area, AREA_LENT, result, sizeof result);
    CHECK(what, factored.number == HUBQR_ACCEPTED);
    is_yes(what);
    memset(result, 0, sizeof result);
    struct hubqr_job job = hubqr_load(matrix, HUBQR_MATRIX_RECORD_BYTES, area, AREA_LENT).job;
    while (job.turn < HUBQR_TURNS) {
        job = hubqr_run(job, 7, area, AREA_LENT).job;
    }
    CHECK(what, hubqr_fetch(job, area, AREA_LENT, result, sizeof result) == HUBQR_ACCEPTED);
    is_yes(what);
}

/* A matrix of parts at both ends of their range, with the upper end on the diagonal. */
static void make_extremes(void)
{
    for (int n = 0; n < 64; n++) {
        int is_upper = n % 9 == 0 || n % 5 < 2;
        set_element(matrix, n / 8, n % 8, is_upper ? INT16_MAX : INT16_MIN, n % 3 == 0 ? INT16_MAX : INT16_MIN);
    }
}

static void test_engines(void)
{
    make_matrix(matrix);
    test_engine("a matrix whose elements differ");
    make_extremes();
    test_engine("the ends of the range");
    for (int part = 17; part <= INT16_MAX; part += 2730) {
        make_equal(matrix, (int16_t)part);
        test_engine("equal parts");
    }
    for (int k = 0; k < HUBQR_ANTENNAS; k++) {
        make_equal(matrix, 0);
        set_element(matrix, k, k, 17, -32768);
        test_engine("one antenna");
    }
}

/* What the desk has written into the buffer gets yes with one of its matrices and no with another. */
static void fetched_is_of(const char *what, uint32_t one, uint32_t other)
{
    struct hubqr_verdict yes = {HUBQR_ACCEPTED, 1}, no = {HUBQR_ACCEPTED, 0};
    verdict_is(what, records[one], sizeof records[one], buffer, HUBQR_RESULT_RECORD_BYTES, yes);
    verdict_is(what, records[other], sizeof records[other], buffer, HUBQR_RESULT_RECORD_BYTES, no);
}

/* At the desk, with a matrix that waits: the first result is that of the first matrix, by either role, the next of the next. */
static void test_desk_results(void)
{
    make_records();
    for (uint32_t k = 0; k < HUBQR_SECTORS; k++) {
        uint32_t next = (k + 1) % HUBQR_SECTORS;
        uint8_t due[HUBQR_RESULT_RECORD_BYTES];
        start();
        load("the first matrix", k, k);
        let_wait("the next one", k, next);
        begin_shared("a round for one sector", k, HUBQR_ROUND_TURNS);
        run("all turns of the first", k, HUBQR_TURNS, HUBQR_TURNS);
        whole_of("the first result", k, due);
        fetch_as_fitter("the first result, fetched by a fitter", k, due);
        fetched_is_of("what a fitter fetched", k, next);
        fetch_whole_next("the first result", k, k, next);
        fetched_is_of("what the operator fetched", k, next);
        begin("the next round");
        run("all turns of the next", k, HUBQR_TURNS, HUBQR_TURNS);
        fetch_whole("the next result", k, next);
        fetched_is_of("what was brought in", next, k);
    }
}

/* The engine's result of a matrix whose elements differ, for others to differ from. */
static void begin_factored(void)
{
    make_matrix(matrix);
    struct hubqr_whole_reply factored = hubqr_whole(matrix, HUBQR_MATRIX_RECORD_BYTES, area, AREA_LENT, result, sizeof result);
    CHECK("Whole", factored.number == HUBQR_ACCEPTED);
}

/* Whether a word of the record is one of R under the diagonal, which has to be 0. */
static int is_under(int k)
{
    return k < ORDER * ORDER && k % ORDER < k / ORDER;
}

/* Another method rounds otherwise, and the sign of R(15, 15) with column 15 of Q is free. */
static void test_other_methods(void)
{
    begin_factored();
    for (int k = 0; k < 2 * ORDER * ORDER; k++) {
        if (!is_under(k)) {
            set_word(result, k, recorded(result, k) ^ 0xf);
        }
    }
    is_yes("four bits of each word are others");
    begin_factored();
    for (int i = 0; i < ORDER; i++) {
        set_word(result, qt(15, i), -recorded(result, qt(15, i)));
    }
    is_no("column 15 of Q has the other sign");
    set_r(15, 15, -recorded(result, r(15, 15)));
    is_yes("and R(15, 15), too");
}

/* A flipped sign, in each word. */
static void test_damaged(void)
{
    for (int k = 0; k < 2 * ORDER * ORDER; k++) {
        begin_factored();
        result[1 + 4 * k] ^= 0x80;
        if (is_under(k) || (k < r(15, 15) && k / ORDER == k % ORDER)) {
            is_refused("the sign of a word on R's diagonal or under it", HUBQR_NOT_TRIANGULAR);
        } else {
            is_no("the sign of a word");
        }
    }
}

static void exchange(int k, int l)
{
    int32_t word = recorded(result, k);
    set_word(result, k, recorded(result, l));
    set_word(result, l, word);
}

/* Q with two columns or two rows exchanged, which leaves all products of rows, and Q for Q transposed. */
static void test_exchanged(void)
{
    for (int n = 0; n < ORDER - 1; n++) {
        begin_factored();
        for (int i = 0; i < ORDER; i++) exchange(qt(n, i), qt(n + 1, i));
        is_no("two columns of Q");
        begin_factored();
        for (int i = 0; i < ORDER; i++) exchange(qt(i, n), qt(i, n + 1));
        is_no("two rows of Q");
    }
    begin_factored();
    for (int k = 0; k < ORDER * ORDER; k++) {
        if (is_under(k)) {
            exchange(qt(k / ORDER, k % ORDER), qt(k % ORDER, k / ORDER));
        }
    }
    is_no("Q transposed");
}

/* A record that is handed over, and the number that it is refused with, 0 for none. */
struct lent {
    const uint8_t *record;
    size_t length;
    uint8_t number;
};

/* Each fault of the matrix with each of the result: those of the matrix come first, and of each record kind, length, content. */
static void test_order(void)
{
    static uint8_t other_matrix[sizeof matrix], unheard[sizeof matrix];
    static uint8_t other_result[sizeof result], under[sizeof result], negative[sizeof result];
    const struct lent matrices[] = {
        {NULL, 0, 1}, {matrix, 0, 1}, {result, 257, 1}, {result, 2049, 1}, {other_matrix, 257, 1}, {other_matrix, 256, 1},
        {matrix, 1, 2}, {matrix, 256, 2}, {matrix, 258, 2}, {unheard, 256, 2}, {unheard, 257, 4}, {matrix, 257, 0}};
    const struct lent results[] = {
        {NULL, 0, 1}, {result, 0, 1}, {matrix, 257, 1}, {other_result, 2049, 1}, {other_result, 2048, 1}, {result, 1, 2},
        {result, 257, 2}, {result, 2048, 2}, {result, 2050, 2}, {under, 2048, 2}, {negative, 2050, 2}, {under, 2049, 8},
        {negative, 2049, 8}, {result, 2049, 0}};
    begin_with(0, 7);
    make_equal(unheard, 16);
    memcpy(other_matrix, unheard, sizeof unheard);
    memcpy(under, result, sizeof result);
    memcpy(negative, result, sizeof result);
    set_word(under, r(15, 14), 1);
    set_word(negative, r(14, 14), -1);
    memcpy(other_result, under, sizeof under);
    other_matrix[0] = other_result[0] = HUBQR_KIND_REFUSAL;
    for (size_t m = 0; m < sizeof matrices / sizeof *matrices; m++) {
        for (size_t n = 0; n < sizeof results / sizeof *results; n++) {
            const struct lent *first = &matrices[m], *second = &results[n];
            uint8_t number = first->number != 0 ? first->number : second->number;
            struct hubqr_verdict due = {number, number == HUBQR_ACCEPTED};
            verdict_is("a fault of each", first->record, first->length, second->record, second->length, due);
        }
    }
}

/* Each word of R that may not be is refused with 8; not before 4. */
static void test_not_triangular(void)
{
    for (int k = 0; k < r(15, 15); k++) {
        if (k % ORDER <= k / ORDER) {
            begin_with(0, 7);
            set_word(result, k, is_under(k) ? 1 : -1);
            is_refused("a word of R that may not be", HUBQR_NOT_TRIANGULAR);
            make_equal(matrix, 16);
            is_refused("such a word, and no antenna is heard", HUBQR_NONE_HEARD);
        }
    }
}

/* One antenna alone: a real part of 16 on the diagonal is not heard, and 17 is. */
static void test_unheard(void)
{
    for (int k = 0; k < HUBQR_ANTENNAS; k++) {
        begin_with(k, k);
        set_r(k, k, 17 * 8192);
        set_r(8 + k, 8 + k, 17 * 8192);
        set_element(matrix, k, k, 16, 2);
        is_refused("a real part of 16", HUBQR_NONE_HEARD);
        set_element(matrix, k, k, 17, 2);
        is_yes("a real part of 17");
    }
}

/* Records that overlap: the same for both, one within the other, and a yes where the matrix ends in the result's kind byte. */
static void test_overlap(void)
{
    static uint8_t joined[HUBQR_MATRIX_RECORD_BYTES - 1 + HUBQR_RESULT_RECORD_BYTES];
    uint8_t *within = result + 1 + 4 * qt(0, 0), *behind = joined + HUBQR_MATRIX_RECORD_BYTES - 1;
    struct hubqr_verdict refused = {HUBQR_WRONG_KIND, 0}, no = {HUBQR_ACCEPTED, 0}, yes = {HUBQR_ACCEPTED, 1};
    begin_with(0, 7);
    verdict_is("the matrix as both", matrix, HUBQR_MATRIX_RECORD_BYTES, matrix, HUBQR_MATRIX_RECORD_BYTES, refused);
    verdict_is("the result as both", result, HUBQR_RESULT_RECORD_BYTES, result, HUBQR_RESULT_RECORD_BYTES, refused);
    set_element(matrix, 7, 7, HALF, HUBQR_KIND_RESULT);
    memcpy(joined, matrix, HUBQR_MATRIX_RECORD_BYTES);
    memcpy(behind, result, HUBQR_RESULT_RECORD_BYTES);
    verdict_is("one byte of both", joined, HUBQR_MATRIX_RECORD_BYTES, behind, HUBQR_RESULT_RECORD_BYTES, yes);
    memcpy(within, matrix, HUBQR_MATRIX_RECORD_BYTES);
    verdict_is("a matrix in Q", within, HUBQR_MATRIX_RECORD_BYTES, result, HUBQR_RESULT_RECORD_BYTES, no);
}

/* Blocks of exactly the records' sizes on the heap, where valgrind sees a step past their ends. */
static void test_exact_blocks(void)
{
    uint8_t *first = malloc(HUBQR_MATRIX_RECORD_BYTES), *second = malloc(HUBQR_RESULT_RECORD_BYTES);
    struct hubqr_verdict yes = {HUBQR_ACCEPTED, 1};
    CHECK("memory for the exact sizes", first && second);
    begin_factored();
    memcpy(first, matrix, HUBQR_MATRIX_RECORD_BYTES);
    memcpy(second, result, HUBQR_RESULT_RECORD_BYTES);
    verdict_is("257 and 2,049 bytes", first, HUBQR_MATRIX_RECORD_BYTES, second, HUBQR_RESULT_RECORD_BYTES, yes);
    CHECK("257 bytes stay", memcmp(first, matrix, HUBQR_MATRIX_RECORD_BYTES) == 0);
    CHECK("2,049 bytes stay", memcmp(second, result, HUBQR_RESULT_RECORD_BYTES) == 0);
    free(first);
    free(second);
}

void test_verify(void)
{
    test_engines();
    test_desk_results();
    test_other_methods();
    test_damaged();
    test_exchanged();
    test_order();
    test_not_triangular();
    test_unheard();
    test_overlap();
    test_exact_blocks();
}
