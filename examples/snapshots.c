/*
 * From a radio's samples to a factored matrix: adds up snapshots, writes the matrix record of the sums, factors it, and prints
 * what came of it.
 *
 *   cc -std=c11 -Iinclude examples/snapshots.c build/libhubqr.a -o build/snapshots
 *   build/snapshots [FILE [MATRIX RESULT]]
 *
 * FILE is a text with a snapshot in each line: 16 whole numbers from -32768 to 32767, the real and the imaginary part of what
 * antenna 0 heard, then those of antennas 1 to 7. Empty lines and lines that begin with '#' are skipped. Without an argument it
 * takes the sample snapshots, seen from the top of the repository. MATRIX and RESULT are files to write the two records to.
 */
#include "hubqr.h"

#include <errno.h>
#include <stdio.h>
#include <stdlib.h>
#include <string.h>

#define SAMPLE "examples/snapshots/hall.txt"

/* What stands between numbers. */
#define BLANKS " \t\r\v\f"

/* Room for a text, about twice what 4,096 snapshots need, and how many of R's 16 diagonal words are printed. */
enum { TEXT_ROOM = 1 << 20, SHOWN = 8 };

/* Says what is wrong with a file. Returns 0, which stands for failed. */
static int fault(const char *path, const char *what)
{
    fprintf(stderr, "snapshots: %s: %s\n", path, what);
    return 0;
}

/* Reports a refusal, if the number is one. Returns whether it is. */
static int refused(const char *path, uint8_t number)
{
    if (number == HUBQR_ACCEPTED) {
        return 0;
    }
    fprintf(stderr, "snapshots: %s: refused with number %u: %s\n", path, (unsigned)number, hubqr_refusal_words(number));
    return 1;
}

/* Reads a text and puts a zero byte behind it, so that it may have no other. Returns whether it could. */
static int read_text(const char *path, char text[TEXT_ROOM])
{
    FILE *file = fopen(path, "rb");
    if (file == NULL) {
        return fault(path, strerror(errno));
    }
    size_t length = fread(text, 1, TEXT_ROOM, file);
    int done = ferror(file) ? fault(path, strerror(errno)) : 1;
    fclose(file);
    if (!done) {
        return 0;
    }
    if (length == TEXT_ROOM || memchr(text, '\0', length) != NULL) {
        return fault(path, "not a text of less than 1 MiB");
    }
    text[length] = '\0';
    return 1;
}

/* Reads the next number of a line and goes on behind it. Returns whether there is one, and within 16 bits. */
static int read_part(const char **line, int16_t *part)
{
    const char *begin = *line + strspn(*line, BLANKS);
    char *end;
    long value = strtol(begin, &end, 10);
    *line = begin + strcspn(begin, BLANKS "\n");
    if (end == begin || end != *line || value < INT16_MIN || value > INT16_MAX) {
        return 0;
    }
    *part = (int16_t)value;
    return 1;
}

/* Reads the snapshot that a line holds. Returns whether it holds one and nothing else. */
static int read_snapshot(const char *line, struct hubqr_snapshot *snapshot)
{
    for (int k = 0; k < HUBQR_ANTENNAS; k++) {
        struct hubqr_sample *sample = &snapshot->samples[k];
        if (!read_part(&line, &sample->re) || !read_part(&line, &sample->im)) {
            return 0;
        }
    }
    line += strspn(line, BLANKS);
    return *line == '\n' || *line == '\0';
}

/* Adds up the snapshots of a text, one after the other, as a radio would bring them. Returns whether all were added. */
static int add_up(const char *path, const char *text, struct hubqr_sums *sums)
{
    struct hubqr_snapshot snapshot;
    for (unsigned long number = 1; *text != '\0'; number++) {
        const char *line = text + strspn(text, BLANKS);
        text = line + strcspn(line, "\n");
        text += *text == '\n';
        if (*line == '#' || *line == '\n' || *line == '\0') {
            continue;
        }
        if (!read_snapshot(line, &snapshot)) {
            fprintf(stderr, "snapshots: %s: line %lu is not 16 whole numbers from -32768 to 32767\n", path, number);
            return 0;
        }
        if (refused(path, hubqr_add_snapshot_at(sums, snapshot))) {
            return 0;
        }
    }
    return 1;
}

static int write_record(const char *path, const uint8_t *record, size_t length)
{
    FILE *file = fopen(path, "wb");
    if (file == NULL) {
        return fault(path, strerror(errno));
    }
    int done = fwrite(record, 1, length, file) == length;
    if (fclose(file) != 0 || !done) {
        return fault(path, strerror(errno));
    }
    return 1;
}

/* Prints the real parts of the matrix's diagonal, which are from 0 to 32767: half the mean power of each antenna. */
static void print_power(const uint8_t *matrix)
{
    printf("power of antennas 0 to 7, the matrix's diagonal:");
    for (int k = 0; k < HUBQR_ANTENNAS; k++) {
        const uint8_t *element = matrix + 1 + 4 * (HUBQR_ANTENNAS * k + k);
        printf(" %d", 256 * element[0] + element[1]);
    }
    printf("\n");
}

static void print_heard(uint8_t heard)
{
    printf("heard antennas:");
    for (unsigned antenna = 0; antenna < HUBQR_ANTENNAS; antenna++) {
        if (heard >> antenna & 1) {
            printf(" %u", antenna);
        }
    }
    printf("\n");
}

/* Prints what the result record is, and what R's diagonal begins with. */
static void print_result(const uint8_t *result, const int32_t *area)
{
    printf("result record: kind %02X, %d bytes\n", (unsigned)result[0], HUBQR_RESULT_RECORD_BYTES);
    printf("first %d diagonal words of R in steps of the 16-bit input:\n", SHOWN);
    for (int i = 0; i < SHOWN; i++) {
        printf(" %9.2f", area[HUBQR_AREA_COLUMNS * i + i] / 8192.0);
    }
    printf("\n");
}

/* Whether all that was printed has been written. */
static int written(void)
{
    if (fflush(stdout) != 0 || ferror(stdout)) {
        return fault("standard output", "not everything could be written");
    }
    return 1;
}

int main(int argc, char **argv)
{
    static char text[TEXT_ROOM];
    static int32_t area[HUBQR_AREA_WORDS];
    static uint8_t matrix[HUBQR_MATRIX_RECORD_BYTES];
    static uint8_t result[HUBQR_RESULT_RECORD_BYTES];
    const char *path = argc > 1 ? argv[1] : SAMPLE;
    if (argc != 1 && argc != 2 && argc != 4) {
        fprintf(stderr, "usage: snapshots [FILE [MATRIX RESULT]]\n");
        return 2;
    }
    struct hubqr_sums sums = hubqr_sums_none();
    if (!read_text(path, text) || !add_up(path, text, &sums)) {
        return 1;
    }
    if (refused(path, hubqr_write_matrix(sums, matrix, sizeof matrix))) {
        return 1;
    }
    struct hubqr_whole_reply whole = hubqr_whole(matrix, sizeof matrix, area, HUBQR_AREA_WORDS, result, sizeof result);
    if (refused(path, whole.number)) {
        return 1;
    }
    if (argc == 4 && !(write_record(argv[2], matrix, sizeof matrix) && write_record(argv[3], result, sizeof result))) {
        return 1;
    }
    printf("snapshots added: %lu\n", (unsigned long)sums.count);
    print_power(matrix);
    print_heard(whole.heard);
    print_result(result, area);
    return written() ? 0 : 1;
}
