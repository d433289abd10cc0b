#include "check.h"

#include <stdio.h>
#include <stdlib.h>
#include <string.h>

int32_t area[AREA_LENT];
uint8_t buffer[BUFFER_LENT];

static int32_t area_before[AREA_LENT];
static uint8_t buffer_before[BUFFER_LENT];
static unsigned passed;

void check(int holds, const char *what, const char *condition, const char *file, int line)
{
    if (!holds) {
        fprintf(stderr, "hubqr C face: FAILED after %u checks: %s: %s (%s:%d)\n", passed, what, condition, file, line);
        exit(EXIT_FAILURE);
    }
    passed++;
}

unsigned checks_passed(void)
{
    return passed;
}

void scribble(void)
{
    memset(area, 0x5a, sizeof area);
    memset(buffer, 0xa5, sizeof buffer);
}

void remember(void)
{
    memcpy(area_before, area, sizeof area);
    memcpy(buffer_before, buffer, sizeof buffer);
}

int unchanged(void)
{
    return unchanged_from(0);
}

int unchanged_from(size_t first)
{
    return memcmp(area, area_before, sizeof area) == 0 &&
           memcmp(buffer + first, buffer_before + first, sizeof buffer - first) == 0;
}

int guards_unchanged(void)
{
    return memcmp(area + HUBQR_AREA_WORDS, area_before + HUBQR_AREA_WORDS, GUARDS * sizeof *area) == 0 &&
           memcmp(buffer + HUBQR_RESULT_RECORD_BYTES, buffer_before + HUBQR_RESULT_RECORD_BYTES, GUARDS) == 0;
}

int is_job(struct hubqr_job job, uint32_t turn, uint32_t made)
{
    return job.turn == turn && job.made == made;
}

int same_desk(const struct hubqr_desk *a, const struct hubqr_desk *b)
{
    return memcmp(a, b, sizeof *a) == 0;
}

/* An accepted call may write all but the guards. */
static int rightly_changed(uint8_t number)
{
    return number == HUBQR_ACCEPTED ? guards_unchanged() : unchanged();
}

void check_heard(const char *what, const uint8_t record[HUBQR_MATRIX_RECORD_BYTES], uint8_t heard)
{
    uint8_t number = heard == 0 ? HUBQR_NONE_HEARD : HUBQR_ACCEPTED;
    scribble();
    remember();
    struct hubqr_load_reply loaded = hubqr_load(record, HUBQR_MATRIX_RECORD_BYTES, area, AREA_LENT);
    CHECK(what, loaded.number == number && loaded.heard == heard && is_job(loaded.job, 0, 0));
    CHECK(what, rightly_changed(number));
    struct hubqr_whole_reply factored = hubqr_whole(record, HUBQR_MATRIX_RECORD_BYTES, area, AREA_LENT, buffer, BUFFER_LENT);
    CHECK(what, factored.number == number && factored.heard == heard);
    CHECK(what, factored.clamps_r == 0 && factored.clamps_q == 0);
    CHECK(what, rightly_changed(number));
}

void set_element(uint8_t *record, int row, int column, int16_t real, int16_t imaginary)
{
    uint8_t *at = record + 1 + 4 * (8 * row + column);
    at[0] = (uint8_t)((uint16_t)real >> 8);
    at[1] = (uint8_t)((uint16_t)real & 0xff);
    at[2] = (uint8_t)((uint16_t)imaginary >> 8);
    at[3] = (uint8_t)((uint16_t)imaginary & 0xff);
}

void make_equal(uint8_t record[HUBQR_MATRIX_RECORD_BYTES], int16_t part)
{
    record[0] = HUBQR_KIND_MATRIX;
    for (int n = 0; n < 64; n++) {
        set_element(record, n / 8, n % 8, part, part);
    }
}

void make_matrix(uint8_t record[HUBQR_MATRIX_RECORD_BYTES])
{
    record[0] = HUBQR_KIND_MATRIX;
    for (int row = 0; row < 8; row++) {
        for (int column = 0; column < 8; column++) {
            int real = (row * 7919 + column * 4447 + 1) % 32768;
            int imaginary = (row * 2741 + column * 6007 + 5) % 32768 - 32768;
            set_element(record, row, column, (int16_t)real, (int16_t)imaginary);
        }
    }
    set_element(record, 0, 0, 1, 32767);
    set_element(record, 7, 7, -32768, -32768);
}
