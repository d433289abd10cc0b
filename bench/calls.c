/* The calls around the turns. They take accepted input only and make no tests; ROTATE names the turn that they make. */
#include "version.h"

/* Column, upper row and lower row of each turn, in tree order. */
static const uint8_t schedule[TURNS][3] = {
    {0, 0, 1}, {0, 2, 3}, {0, 4, 5}, {0, 6, 7}, {0, 8, 9}, {0, 10, 11}, {0, 12, 13}, {0, 14, 15}, {0, 0, 2}, {0, 4, 6},
    {0, 8, 10}, {0, 12, 14}, {0, 0, 4}, {0, 8, 12}, {0, 0, 8}, {1, 1, 2}, {1, 3, 4}, {1, 5, 6}, {1, 7, 8}, {1, 9, 10},
    {1, 11, 12}, {1, 13, 14}, {1, 1, 3}, {1, 5, 7}, {1, 9, 11}, {1, 13, 15}, {1, 1, 5}, {1, 9, 13}, {1, 1, 9}, {2, 2, 3},
    {2, 4, 5}, {2, 6, 7}, {2, 8, 9}, {2, 10, 11}, {2, 12, 13}, {2, 14, 15}, {2, 2, 4}, {2, 6, 8}, {2, 10, 12}, {2, 2, 6},
    {2, 10, 14}, {2, 2, 10}, {3, 3, 4}, {3, 5, 6}, {3, 7, 8}, {3, 9, 10}, {3, 11, 12}, {3, 13, 14}, {3, 3, 5}, {3, 7, 9},
    {3, 11, 13}, {3, 3, 7}, {3, 11, 15}, {3, 3, 11}, {4, 4, 5}, {4, 6, 7}, {4, 8, 9}, {4, 10, 11}, {4, 12, 13}, {4, 14, 15},
    {4, 4, 6}, {4, 8, 10}, {4, 12, 14}, {4, 4, 8}, {4, 4, 12}, {5, 5, 6}, {5, 7, 8}, {5, 9, 10}, {5, 11, 12}, {5, 13, 14},
    {5, 5, 7}, {5, 9, 11}, {5, 13, 15}, {5, 5, 9}, {5, 5, 13}, {6, 6, 7}, {6, 8, 9}, {6, 10, 11}, {6, 12, 13}, {6, 14, 15},
    {6, 6, 8}, {6, 10, 12}, {6, 6, 10}, {6, 6, 14}, {7, 7, 8}, {7, 9, 10}, {7, 11, 12}, {7, 13, 14}, {7, 7, 9}, {7, 11, 13},
    {7, 7, 11}, {7, 7, 15}, {8, 8, 9}, {8, 10, 11}, {8, 12, 13}, {8, 14, 15}, {8, 8, 10}, {8, 12, 14}, {8, 8, 12}, {9, 9, 10},
    {9, 11, 12}, {9, 13, 14}, {9, 9, 11}, {9, 13, 15}, {9, 9, 13}, {10, 10, 11}, {10, 12, 13}, {10, 14, 15}, {10, 10, 12},
    {10, 10, 14}, {11, 11, 12}, {11, 13, 14}, {11, 11, 13}, {11, 11, 15}, {12, 12, 13}, {12, 14, 15}, {12, 12, 14},
    {13, 13, 14}, {13, 13, 15}, {14, 14, 15},
};

/* The 16-bit number in two bytes, scaled as the area holds it. */
static int32_t entry(const uint8_t *bytes)
{
    return (int16_t)(bytes[0] << 8 | bytes[1]) * INPUT_SCALE;
}

/* Fills the area from a matrix record and answers the heard byte. Its bit k goes by the real part of element (k, k) alone. */
uint8_t NAME(load)(const uint8_t *record, int32_t *area)
{
    unsigned heard = 0;
    for (int i = 0; i < 8; i++) {
        int32_t *above = area + COLUMNS * i;
        int32_t *below = above + COLUMNS * 8;
        for (int j = 0; j < 8; j++) {
            const uint8_t *element = record + 1 + 4 * (8 * i + j);
            int32_t re = entry(element);
            int32_t im = entry(element + 2);
            above[j] = re;
            above[j + 8] = -im;
            below[j] = im;
            below[j + 8] = re;
        }
        heard |= (unsigned)(above[i] > HEARD_ABOVE * INPUT_SCALE) << i;
    }
    for (int i = 0; i < ROWS; i++) {
        for (int j = 0; j < 16; j++) {
            area[COLUMNS * i + 16 + j] = i == j ? ONE : 0;
        }
    }
    return (uint8_t)heard;
}

/* Goes on by at most `allowance` of the turns that remain and skips those that are clear. Answers the job and the clamps. */
struct run_reply NAME(run)(struct job job, uint16_t allowance, int32_t *area)
{
    uint32_t end = allowance < TURNS - job.turn ? job.turn + allowance : TURNS;
    struct clamps clamps = {0, 0};
    for (; job.turn < end; job.turn++) {
        const uint8_t *t = schedule[job.turn];
        int32_t *upper = area + COLUMNS * t[1];
        int32_t *lower = area + COLUMNS * t[2];
        if (lower[t[0]] == 0 && upper[t[0]] >= 0) {
            continue;
        }
        struct clamps more = NAME(ROTATE)(upper, lower, t[0]);
        job.made++;
        clamps.r += more.r;
        clamps.q += more.q;
    }
    return (struct run_reply){job, clamps};
}

/* Writes the result record: R, then Q transposed. */
void NAME(fetch)(const int32_t *area, uint8_t *buffer)
{
    *buffer++ = 2;
    for (int half = 0; half < 2; half++) {
        for (int i = 0; i < ROWS; i++) {
            for (int j = 0; j < 16; j++) {
                uint32_t w = (uint32_t)area[COLUMNS * i + 16 * half + j];
                buffer[0] = (uint8_t)(w >> 24);
                buffer[1] = (uint8_t)(w >> 16);
                buffer[2] = (uint8_t)(w >> 8);
                buffer[3] = (uint8_t)w;
                buffer += 4;
            }
        }
    }
}

/* Load, all turns and Fetch. */
struct whole_reply NAME(whole)(const uint8_t *record, int32_t *area, uint8_t *buffer)
{
    struct whole_reply reply;
    reply.heard = NAME(load)(record, area);
    reply.clamps = NAME(run)((struct job){0, 0}, TURNS, area).clamps;
    NAME(fetch)(area, buffer);
    return reply;
}
