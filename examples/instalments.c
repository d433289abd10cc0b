/*
 * Factors a matrix record in instalments of 7 rotations, with other work between them, and prints R. Each instalment says how far
 * the job is, and how many of the rotations were truly made: those that have nothing to clear are skipped.
 *
 *   cc -std=c11 -Iinclude examples/instalments.c build/libhubqr.a -o build/instalments
 *   build/instalments [RECORD]
 *
 * Without an argument it takes the sample covariance, seen from the top of the repository.
 */
#include "hubqr.h"

#include <errno.h>
#include <stdio.h>
#include <string.h>

#define SAMPLE "examples/records/hermitian.bin"

enum { INSTALMENT = 7 };

/* Reports a refusal, if the number is one. Returns whether it is. */
static int refused(const char *path, uint8_t number)
{
    if (number == HUBQR_ACCEPTED) {
        return 0;
    }
    fprintf(stderr, "instalments: %s: refused with number %u: %s\n", path, (unsigned)number, hubqr_refusal_words(number));
    return 1;
}

/* Reads a record. The buffer has room for one byte more than a record has, so that Load sees a file that is too long. */
static int read_record(const char *path, uint8_t record[HUBQR_MATRIX_RECORD_BYTES + 1], size_t *length)
{
    FILE *file = fopen(path, "rb");
    if (file == NULL) {
        fprintf(stderr, "instalments: %s: %s\n", path, strerror(errno));
        return 0;
    }
    *length = fread(record, 1, HUBQR_MATRIX_RECORD_BYTES + 1, file);
    int failed = ferror(file);
    if (failed) {
        fprintf(stderr, "instalments: %s: %s\n", path, strerror(errno));
    }
    fclose(file);
    return !failed;
}

/* Stands for what a hub does between instalments: listening, answering, switching. */
static void other_work(unsigned *rounds)
{
    *rounds += 1;
}

/* Prints what an instalment answered. */
static void print_instalment(struct hubqr_run_reply ran, unsigned rounds)
{
    printf("turn %3lu of %d, made %3lu, count %lu, clamps %lu in R, %lu in Q, rounds of other work %u\n",
           (unsigned long)ran.job.turn, HUBQR_TURNS, (unsigned long)ran.job.made, (unsigned long)ran.count,
           (unsigned long)ran.clamps_r, (unsigned long)ran.clamps_q, rounds);
}

/* Does all turns in instalments, and takes the job along. Returns the number; no area filled by Load is refused. */
static uint8_t work(int32_t *area, struct hubqr_job *job)
{
    unsigned rounds = 0;
    while (job->turn < HUBQR_TURNS) {
        struct hubqr_run_reply ran = hubqr_run(*job, INSTALMENT, area, HUBQR_AREA_WORDS);
        if (ran.number != HUBQR_ACCEPTED) {
            return ran.number;
        }
        *job = ran.job;
        other_work(&rounds);
        print_instalment(ran, rounds);
    }
    return HUBQR_ACCEPTED;
}

static void print_heard(uint8_t heard)
{
    printf("heard antennas:");
    for (unsigned antenna = 0; antenna < 8; antenna++) {
        if (heard >> antenna & 1) {
            printf(" %u", antenna);
        }
    }
    printf("\n");
}

/* Prints R in steps of the 16-bit input. */
static void print_r(const int32_t *area)
{
    printf("R in steps of the 16-bit input:\n");
    for (int i = 0; i < HUBQR_AREA_ROWS; i++) {
        for (int j = 0; j < 16; j++) {
            printf(" %9.2f", area[HUBQR_AREA_COLUMNS * i + j] / 8192.0);
        }
        printf("\n");
    }
}

/* Whether all that was printed has been written. */
static int written(void)
{
    if (fflush(stdout) != 0 || ferror(stdout)) {
        fprintf(stderr, "instalments: standard output: not everything could be written\n");
        return 0;
    }
    return 1;
}

int main(int argc, char **argv)
{
    static int32_t area[HUBQR_AREA_WORDS];
    static uint8_t result[HUBQR_RESULT_RECORD_BYTES];
    uint8_t record[HUBQR_MATRIX_RECORD_BYTES + 1];
    const char *path = argc > 1 ? argv[1] : SAMPLE;
    size_t length;
    if (argc > 2) {
        fprintf(stderr, "usage: instalments [RECORD]\n");
        return 2;
    }
    if (!read_record(path, record, &length)) {
        return 1;
    }
    struct hubqr_load_reply loaded = hubqr_load(record, length, area, HUBQR_AREA_WORDS);
    if (refused(path, loaded.number)) {
        return 1;
    }
    print_heard(loaded.heard);
    struct hubqr_job job = loaded.job;
    if (refused(path, work(area, &job)) || refused(path, hubqr_fetch(job, area, HUBQR_AREA_WORDS, result, sizeof result))) {
        return 1;
    }
    printf("result record: kind %02X, %lu bytes\n", (unsigned)result[0], (unsigned long)sizeof result);
    print_r(area);
    return written() ? 0 : 1;
}
