/* Adding snapshots and writing their matrix as the request words it, with all its tests: first the tests, then the work. */
#include "covariance.h"

/* The product of a sample with the conjugate of another: its real part, and its imaginary part. */
static int64_t real(struct hubqr_sample a, struct hubqr_sample b)
{
    return (int64_t)a.re * b.re + (int64_t)a.im * b.im;
}

static int64_t imaginary(struct hubqr_sample a, struct hubqr_sample b)
{
    return (int64_t)a.im * b.re - (int64_t)a.re * b.im;
}

static int in_range(const struct hubqr_sums *sums)
{
    if (sums->count > HUBQR_SNAPSHOTS_MAX) {
        return 0;
    }
    int64_t limit = (INT64_C(1) << 31) * sums->count;
    for (int n = 0; n < HUBQR_SUM_WORDS; n++) {
        if (sums->words[n] > limit || sums->words[n] < -limit) {
            return 0;
        }
    }
    return 1;
}

static uint8_t add_refusal(const struct hubqr_sums *sums)
{
    return sums->count == HUBQR_SNAPSHOTS_MAX || !in_range(sums) ? HUBQR_SUMS_OUT_OF_RANGE : HUBQR_ACCEPTED;
}

static void add(struct hubqr_sums *sums, const struct hubqr_sample *samples)
{
    int64_t *sum = sums->words;
    for (int i = 0; i < HUBQR_ANTENNAS; i++) {
        for (int j = 0; j < HUBQR_ANTENNAS; j++) {
            sum[0] += real(samples[i], samples[j]);
            sum[1] += imaginary(samples[i], samples[j]);
            sum += 2;
        }
    }
    sums->count++;
}

/* On the diagonal the imaginary part of the product is 0. */
static void add_halves(struct hubqr_sums *sums, const struct hubqr_sample *samples)
{
    for (int i = 0; i < HUBQR_ANTENNAS; i++) {
        sums->words[2 * (HUBQR_ANTENNAS * i + i)] += real(samples[i], samples[i]);
        for (int j = i + 1; j < HUBQR_ANTENNAS; j++) {
            int64_t *above = sums->words + 2 * (HUBQR_ANTENNAS * i + j);
            int64_t *below = sums->words + 2 * (HUBQR_ANTENNAS * j + i);
            int64_t re = real(samples[i], samples[j]);
            int64_t im = imaginary(samples[i], samples[j]);
            above[0] += re;
            above[1] += im;
            below[0] += re;
            below[1] -= im;
        }
    }
    sums->count++;
}

struct hubqr_add_reply NAME(add_by_value)(struct hubqr_snapshot snapshot, struct hubqr_sums sums)
{
    uint8_t number = add_refusal(&sums);
    if (number == HUBQR_ACCEPTED) {
        add(&sums, snapshot.samples);
    }
    return (struct hubqr_add_reply){number, sums};
}

uint8_t NAME(add_in_place)(struct hubqr_sums *sums, struct hubqr_snapshot snapshot)
{
    uint8_t number = add_refusal(sums);
    if (number == HUBQR_ACCEPTED) {
        add(sums, snapshot.samples);
    }
    return number;
}

uint8_t NAME(add_shared_halves)(struct hubqr_sums *sums, struct hubqr_snapshot snapshot)
{
    uint8_t number = add_refusal(sums);
    if (number == HUBQR_ACCEPTED) {
        add_halves(sums, snapshot.samples);
    }
    return number;
}

static uint8_t write_refusal(const struct hubqr_sums *sums, size_t buffer_len)
{
    if (!in_range(sums)) {
        return HUBQR_SUMS_OUT_OF_RANGE;
    }
    if (sums->count == 0) {
        return HUBQR_NONE_ADDED;
    }
    return buffer_len < HUBQR_MATRIX_RECORD_BYTES ? HUBQR_BUFFER_TOO_SHORT : HUBQR_ACCEPTED;
}

static void write_record(const struct hubqr_sums *sums, uint8_t *buffer)
{
    int64_t divisor = INT64_C(65536) * sums->count;
    *buffer++ = HUBQR_KIND_MATRIX;
    for (int n = 0; n < HUBQR_SUM_WORDS; n++) {
        int64_t quotient = sums->words[n] / divisor;
        uint16_t part = (uint16_t)(quotient > INT16_MAX ? INT16_MAX : quotient);
        *buffer++ = (uint8_t)(part >> 8);
        *buffer++ = (uint8_t)part;
    }
}

uint8_t NAME(write_in_place)(const struct hubqr_sums *sums, uint8_t *buffer, size_t buffer_len)
{
    uint8_t number = write_refusal(sums, buffer_len);
    if (number == HUBQR_ACCEPTED) {
        write_record(sums, buffer);
    }
    return number;
}

uint8_t NAME(write_by_value)(struct hubqr_sums sums, uint8_t *buffer, size_t buffer_len)
{
    return NAME(write_in_place)(&sums, buffer, buffer_len);
}
