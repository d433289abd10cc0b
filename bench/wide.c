/* A turn in 64-bit words with the micro-steps outermost, so that a compiler can work several columns at once. */
#include "version.h"

/* Both rows from the leading column on, in 64 bits, negated where the upper leading word is negative. */
static void orient(const int32_t *upper, const int32_t *lower, int leading, int64_t *restrict u, int64_t *restrict v)
{
    int64_t sign = upper[leading] < 0 ? -1 : 1;
    for (int k = leading; k < COLUMNS; k++) {
        u[k] = sign * upper[k];
        v[k] = sign * lower[k];
    }
}

/* Micro-step i of the columns from the leading one on. */
static void micro_step(int64_t *restrict u, int64_t *restrict v, int leading, int i)
{
    int positive = v[leading] >= 0;
    for (int k = leading; k < COLUMNS; k++) {
        int64_t a = v[k] >> i;
        int64_t b = u[k] >> i;
        if (positive) {
            u[k] += a;
            v[k] -= b;
        } else {
            u[k] -= a;
            v[k] += b;
        }
    }
}

/* Stores both rows from column `first` to before column `end`. Answers the clamps. */
static uint32_t store(int32_t *upper, int32_t *lower, const int64_t *u, const int64_t *v, int first, int end)
{
    uint32_t clamps = 0;
    for (int k = first; k < end; k++) {
        upper[k] = clamped(u[k], &clamps);
        lower[k] = clamped(v[k], &clamps);
    }
    return clamps;
}

struct clamps NAME(rotate_wide)(int32_t *upper, int32_t *lower, int leading)
{
    int64_t u[COLUMNS], v[COLUMNS];
    struct clamps clamps = {0, 0};
    orient(upper, lower, leading, u, v);
    for (int i = 0; i < STEPS; i++) {
        micro_step(u, v, leading, i);
    }
    upper[leading] = clamped(u[leading], &clamps.r);
    lower[leading] = 0;
    clamps.r += store(upper, lower, u, v, leading + 1, R_COLUMNS);
    clamps.q += store(upper, lower, u, v, R_COLUMNS, COLUMNS);
    return clamps;
}
