#include "verdicts.h"

#include <string.h>

uint8_t matrix[HUBQR_MATRIX_RECORD_BYTES + 1], result[HUBQR_RESULT_RECORD_BYTES + 1];

void set_r(int i, int j, int32_t word)
{
    set_word(result, r(i, j), word);
}

void set_q(int i, int j, int32_t word)
{
    set_word(result, qt(j, i), word);
}

void set_entry(int i, int j, int16_t entry)
{
    int is_real = i / 8 == j / 8;
    set_element(matrix, i % 8, j % 8, is_real ? entry : 0, (int16_t)(is_real ? 0 : i < 8 ? -entry : entry));
}

void begin_with(int first, int last)
{
    make_equal(matrix, 0);
    memset(result, 0, sizeof result);
    result[0] = HUBQR_KIND_RESULT;
    for (int n = 0; n < ORDER; n++) {
        set_q(n, n, HUBQR_Q_ONE);
        if (n % 8 >= first && n % 8 <= last) {
            set_entry(n, n, HALF);
            set_r(n, n, R_HALF);
        }
    }
}

void verdict_is(const char *what, const uint8_t *first, size_t first_len, const uint8_t *second, size_t second_len,
                struct hubqr_verdict due)
{
    uint8_t matrix_before[sizeof matrix], result_before[sizeof result];
    memcpy(matrix_before, matrix, sizeof matrix);
    memcpy(result_before, result, sizeof result);
    struct hubqr_verdict verdict = hubqr_verify(first, first_len, second, second_len);
    CHECK(what, verdict.number == due.number && verdict.yes == due.yes);
    CHECK(what, memcmp(matrix_before, matrix, sizeof matrix) == 0 && memcmp(result_before, result, sizeof result) == 0);
}

/* Both records in their own lengths. */
static void both(const char *what, uint8_t number, uint8_t yes)
{
    struct hubqr_verdict due = {number, yes};
    verdict_is(what, matrix, HUBQR_MATRIX_RECORD_BYTES, result, HUBQR_RESULT_RECORD_BYTES, due);
}

void is_yes(const char *what)
{
    both(what, HUBQR_ACCEPTED, 1);
}

void is_no(const char *what)
{
    both(what, HUBQR_ACCEPTED, 0);
}

void is_refused(const char *what, uint8_t number)
{
    both(what, number, 0);
}
