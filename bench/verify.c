/* Verify as the request words it, with all its tests: first the tests, then the work. */
#include "verify.h"

#include "records.h"

/* Holds every sum: 16 products of two words are at most 2^66 in magnitude. */
typedef __int128 sum_type;

static const sum_type LIMIT = (sum_type)1 << 44;

/* Q and R of a result record, and the matrix made real. */
struct factors {
    int32_t q[SIZE][SIZE];
    int32_t r[SIZE][SIZE];
    int32_t input[SIZE][SIZE];
};

static uint8_t matrix_refusal(const uint8_t *matrix, size_t matrix_len)
{
    if (matrix_len == 0 || matrix[0] != HUBQR_KIND_MATRIX) {
        return HUBQR_WRONG_KIND;
    }
    if (matrix_len != HUBQR_MATRIX_RECORD_BYTES) {
        return HUBQR_WRONG_LENGTH;
    }
    return any_heard(matrix) ? HUBQR_ACCEPTED : HUBQR_NONE_HEARD;
}

static uint8_t result_refusal(const uint8_t *result, size_t result_len)
{
    if (result_len == 0 || result[0] != HUBQR_KIND_RESULT) {
        return HUBQR_WRONG_KIND;
    }
    if (result_len != HUBQR_RESULT_RECORD_BYTES) {
        return HUBQR_WRONG_LENGTH;
    }
    return keeps_rule(result + 1) ? HUBQR_ACCEPTED : HUBQR_NOT_TRIANGULAR;
}

static void unpack(const uint8_t *matrix, const uint8_t *result, struct factors *f)
{
    for (int i = 0; i < SIZE; i++) {
        for (int j = 0; j < SIZE; j++) {
            f->r[i][j] = word(result + 1, i, j);
            f->q[i][j] = word(result + 1 + 4 * SIZE * SIZE, j, i);
        }
    }
    for (int i = 0; i < HUBQR_ANTENNAS; i++) {
        for (int j = 0; j < HUBQR_ANTENNAS; j++) {
            const uint8_t *element = matrix + 1 + 4 * (HUBQR_ANTENNAS * i + j);
            f->input[i][j] = f->input[i + HUBQR_ANTENNAS][j + HUBQR_ANTENNAS] = part(element);
            f->input[i + HUBQR_ANTENNAS][j] = part(element + 2);
            f->input[i][j + HUBQR_ANTENNAS] = -part(element + 2);
        }
    }
}

static int within(sum_type sum, sum_type due)
{
    return sum - due <= LIMIT && due - sum <= LIMIT;
}

/* Whether both sums of row i and column or row j are within their limits. */
static int pair_within(const struct factors *f, int i, int j)
{
    sum_type product = 0, rows = 0;
    for (int k = 0; k < SIZE; k++) {
        product += (int64_t)f->q[i][k] * f->r[k][j];
        rows += (int64_t)f->q[i][k] * f->q[j][k];
    }
    sum_type one = i == j ? (sum_type)1 << 60 : 0;
    return within(product, (sum_type)f->input[i][j] * ((sum_type)1 << 43)) && within(rows, one);
}

static int all_within(const struct factors *f)
{
    for (int i = 0; i < SIZE; i++) {
        for (int j = 0; j < SIZE; j++) {
            if (!pair_within(f, i, j)) {
                return 0;
            }
        }
    }
    return 1;
}

struct hubqr_verdict NAME(verify)(const uint8_t *matrix, size_t matrix_len, const uint8_t *result, size_t result_len)
{
    struct hubqr_verdict verdict = {matrix_refusal(matrix, matrix_len), 0};
    if (verdict.number == HUBQR_ACCEPTED) {
        verdict.number = result_refusal(result, result_len);
    }
    if (verdict.number == HUBQR_ACCEPTED) {
        struct factors f;
        unpack(matrix, result, &f);
        verdict.yes = (uint8_t)all_within(&f);
    }
    return verdict;
}
