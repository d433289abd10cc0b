/*
 * The weights as the request words them, with all its tests: first the tests, then the work. To be compiled so that no product is
 * fused with a difference, since each is rounded by itself.
 */
#include "weights.h"

#include "records.h"

static int has_zero(const uint8_t *r)
{
    for (int i = 0; i < SIZE; i++) {
        if (word(r, i, i) == 0) {
            return 1;
        }
    }
    return 0;
}

static uint8_t refusal(const uint8_t *record, size_t record_len)
{
    if (record_len == 0 || record[0] != HUBQR_KIND_RESULT) {
        return HUBQR_WRONG_KIND;
    }
    if (record_len != HUBQR_RESULT_RECORD_BYTES) {
        return HUBQR_WRONG_LENGTH;
    }
    if (!keeps_rule(record + 1)) {
        return HUBQR_NOT_TRIANGULAR;
    }
    return has_zero(record + 1) ? HUBQR_ZERO_DIAGONAL : HUBQR_ACCEPTED;
}

/* Solves the rows from the last one up. */
static void solve(const uint8_t *r, const uint8_t *q_transposed, const int16_t *target, double *x)
{
    for (int i = SIZE - 1; i >= 0; i--) {
        int64_t sum = 0;
        for (int j = 0; j < SIZE; j++) {
            sum += (int64_t)word(q_transposed, i, j) * target[j];
        }
        double rest = (double)sum / 131072.0;
        for (int j = i + 1; j < SIZE; j++) {
            rest -= (double)word(r, i, j) * x[j];
        }
        x[i] = rest / (double)word(r, i, i);
    }
}

struct hubqr_weights_reply NAME(weights)(const uint8_t *record, size_t record_len, struct hubqr_snapshot targets)
{
    struct hubqr_weights_reply reply = {refusal(record, record_len), {{0, 0}}};
    if (reply.number != HUBQR_ACCEPTED) {
        return reply;
    }
    int16_t target[SIZE];
    for (int k = 0; k < HUBQR_ANTENNAS; k++) {
        target[k] = targets.samples[k].re;
        target[k + HUBQR_ANTENNAS] = targets.samples[k].im;
    }
    double x[SIZE];
    solve(record + 1, record + 1 + 4 * SIZE * SIZE, target, x);
    for (int k = 0; k < HUBQR_ANTENNAS; k++) {
        reply.weights[k].re = x[k];
        reply.weights[k].im = x[k + HUBQR_ANTENNAS];
    }
    return reply;
}
