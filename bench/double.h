/* What the comparators in double share: a part of an element of a matrix record, as the number that it stands for. */
#ifndef DOUBLE_H
#define DOUBLE_H

#include <stdint.h>

static inline double part(const uint8_t *bytes)
{
    return (int16_t)(bytes[0] << 8 | bytes[1]) / 32768.0;
}

#endif
