/*
 * A turn in 32-bit words with the micro-steps outermost. It is exact where every column's u^2 + v^2 is at most 2^60 + 2^44, as
 * it is for a loaded matrix: no sum leaves 32 bits then and nothing is clamped. Other rows take the 64-bit turn.
 */
#include "version.h"

#define NORM ((UINT64_C(1) << 60) + (UINT64_C(1) << 44))

static int is_small(const int32_t *upper, const int32_t *lower, int leading)
{
    for (int k = leading; k < COLUMNS; k++) {
        int64_t u = upper[k];
        int64_t v = lower[k];
        if ((uint64_t)(u * u) + (uint64_t)(v * v) > NORM) {
            return 0;
        }
    }
    return 1;
}

/* The word where the mask is 0, and its negative where the mask is -1. */
static int32_t toward(int32_t mask, int32_t w)
{
    return (w ^ mask) - mask;
}

/* Micro-step i of the first `count` columns, of which the first is the leading one. */
static void micro_step(int32_t *restrict u, int32_t *restrict v, int count, int i)
{
    int32_t mask = v[0] >> 31;
    for (int k = 0; k < count; k++) {
        int32_t a = toward(mask, v[k] >> i);
        int32_t b = toward(mask, u[k] >> i);
        u[k] += a;
        v[k] -= b;
    }
}

/* The rows to work in begin with the leading column, so that a compiler's vectors begin where the arrays do. */
static void rotate_small(int32_t *restrict upper, int32_t *restrict lower, int count)
{
    int32_t u[COLUMNS], v[COLUMNS];
    int32_t mask = upper[0] >> 31;
    for (int k = 0; k < count; k++) {
        u[k] = toward(mask, upper[k]);
        v[k] = toward(mask, lower[k]);
    }
    for (int i = 0; i < STEPS; i++) {
        micro_step(u, v, count, i);
    }
    for (int k = 0; k < count; k++) {
        upper[k] = (int32_t)scaled(u[k]);
        lower[k] = (int32_t)scaled(v[k]);
    }
    lower[0] = 0;
}

struct clamps NAME(rotate_narrow)(int32_t *upper, int32_t *lower, int leading)
{
    if (!is_small(upper, lower, leading)) {
        return NAME(rotate_wide)(upper, lower, leading);
    }
    rotate_small(upper + leading, lower + leading, COLUMNS - leading);
    return (struct clamps){0, 0};
}
