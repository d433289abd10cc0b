/* What the versions in C share that take records: the numbers in them and the tests of their contents. */
#ifndef RECORDS_H
#define RECORDS_H

#include "hubqr.h"

/* Rows and columns of the matrix made real, of R and of Q. */
enum { SIZE = 2 * HUBQR_ANTENNAS };

/* The 16-bit number in two bytes. */
static inline int16_t part(const uint8_t *bytes)
{
    return (int16_t)(bytes[0] << 8 | bytes[1]);
}

/* Word (i, j) of R, or of Q transposed, of which these are the bytes. */
static inline int32_t word(const uint8_t *bytes, int i, int j)
{
    bytes += 4 * (SIZE * i + j);
    return (int32_t)((uint32_t)bytes[0] << 24 | (uint32_t)bytes[1] << 16 | (uint32_t)bytes[2] << 8 | bytes[3]);
}

/* Whether an antenna is heard in a matrix record. */
static inline int any_heard(const uint8_t *record)
{
    for (int k = 0; k < HUBQR_ANTENNAS; k++) {
        if (part(record + 1 + 4 * (HUBQR_ANTENNAS * k + k)) > HUBQR_HEARD_ABOVE) {
            return 1;
        }
    }
    return 0;
}

/* Whether R is upper triangular and its first 15 diagonal words are not negative. */
static inline int keeps_rule(const uint8_t *r)
{
    for (int i = 0; i < SIZE; i++) {
        for (int j = 0; j < i; j++) {
            if (word(r, i, j) != 0) {
                return 0;
            }
        }
        if (i < SIZE - 1 && word(r, i, i) < 0) {
            return 0;
        }
    }
    return 1;
}

#endif
