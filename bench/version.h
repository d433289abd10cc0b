/* What the versions in C of the factorization share. */
#ifndef VERSION_H
#define VERSION_H

#include <stdint.h>

#include "name.h"

/* Columns before R_COLUMNS hold R, the others Q transposed. */
enum { ROWS = 16, R_COLUMNS = 16, COLUMNS = 32, STEPS = 28, TURNS = 120 };
enum { INPUT_SCALE = 1 << 13, ONE = 1 << 30, GAIN = 652032874 };

/* What the real part of an antenna's diagonal element has to be above for the antenna to count as heard. */
enum { HEARD_ABOVE = 16 };

/* Clamps by side: of the columns that hold R, and of those that hold Q. */
struct clamps {
    uint32_t r;
    uint32_t q;
};

/* How far the work on an area is: the turns done, the skipped ones included, and the turns made. */
struct job {
    uint32_t turn;
    uint32_t made;
};

/* What Run answers. */
struct run_reply {
    struct job job;
    struct clamps clamps;
};

/* What Whole answers. */
struct whole_reply {
    uint8_t heard;
    struct clamps clamps;
};

/* One turn of two rows of the area that are not clear, from the leading column on, which is one of R. Answers the clamps. */
struct clamps NAME(rotate_plain)(int32_t *upper, int32_t *lower, int leading);
struct clamps NAME(rotate_wide)(int32_t *upper, int32_t *lower, int leading);
struct clamps NAME(rotate_narrow)(int32_t *upper, int32_t *lower, int leading);

/* A word after the micro-steps: the gain taken back, rounded. */
static inline int64_t scaled(int64_t w)
{
    return (w * GAIN + (1 << 29)) >> 30;
}

/* A word as it is stored: scaled, and clamped to 32 bits, which counts if it alters the word. */
static inline int32_t clamped(int64_t w, uint32_t *clamps)
{
    int64_t s = scaled(w);
    int64_t stored = s < INT32_MIN ? INT32_MIN : s > INT32_MAX ? INT32_MAX : s;
    *clamps += stored != s;
    return (int32_t)stored;
}

#endif
