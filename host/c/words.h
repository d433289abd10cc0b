/* What the tests that make result records of their own share: where a word stands in one, and how it is put there. */
#ifndef WORDS_H
#define WORDS_H

#include <stdint.h>

/* R and Q are real, 16 by 16. */
enum { ORDER = 16 };

/* Where word (i, j) of R and of Q transposed stands in the record, counted in words. */
static inline int r(int i, int j)
{
    return ORDER * i + j;
}

static inline int qt(int i, int j)
{
    return ORDER * (ORDER + i) + j;
}

static inline void set_word(uint8_t *record, int k, int32_t word)
{
    for (int n = 0; n < 4; n++) {
        record[1 + 4 * k + n] = (uint8_t)((uint32_t)word >> (24 - 8 * n));
    }
}

/* The word that stands in a result record at place k, R first and then Q transposed. */
static inline int32_t recorded(const uint8_t *record, int k)
{
    const uint8_t *at = record + 1 + 4 * k;
    int64_t value = (int64_t)at[0] << 24 | at[1] << 16 | at[2] << 8 | at[3];
    return (int32_t)(value > INT32_MAX ? value - (INT64_C(1) << 32) : value);
}

#endif
