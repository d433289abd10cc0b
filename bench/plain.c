/* A turn that is made, as the specification words it: sums in 64 bits, column by column. The leading column decides the signs. */
#include "version.h"

struct clamps NAME(rotate_plain)(int32_t *upper, int32_t *lower, int leading)
{
    int negate = upper[leading] < 0;
    int positive[STEPS];
    struct clamps clamps = {0, 0};
    for (int k = leading; k < COLUMNS; k++) {
        int64_t u = negate ? -(int64_t)upper[k] : upper[k];
        int64_t v = negate ? -(int64_t)lower[k] : lower[k];
        for (int i = 0; i < STEPS; i++) {
            int64_t a = v >> i;
            int64_t b = u >> i;
            if (k == leading) {
                positive[i] = v >= 0;
            }
            u = positive[i] ? u + a : u - a;
            v = positive[i] ? v - b : v + b;
        }
        uint32_t altered = 0;
        upper[k] = clamped(u, &altered);
        lower[k] = k == leading ? 0 : clamped(v, &altered);
        if (k < R_COLUMNS) {
            clamps.r += altered;
        } else {
            clamps.q += altered;
        }
    }
    return clamps;
}
