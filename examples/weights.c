/*
 * From a result record to the weights of a modem: reads the record and eight targets, and prints the weights in full.
 *
 *   cc -std=c11 -Iinclude examples/weights.c build/libhubqr.a -o build/weights
 *   build/weights RESULT TARGETS
 *
 * RESULT is a result record, as the program qr or examples/snapshots.c writes it. TARGETS is a text of eight complex numbers as
 * -123+45i, whole numbers in units of 1/32768, with blanks or line ends between them. What follows a '#' is a remark.
 */
#include "hubqr.h"

#include <errno.h>
#include <stdio.h>
#include <stdlib.h>
#include <string.h>

/* What stands between numbers, and where one ends. */
#define BLANKS " \t\r\n\v\f"
#define ENDS BLANKS "#"

/* Room for a text, far more than eight numbers and their remarks need. */
enum { TEXT_ROOM = 1 << 16 };

/* Says what is wrong with a file. Returns 0, which stands for failed. */
static int fault(const char *path, const char *what)
{
    fprintf(stderr, "weights: %s: %s\n", path, what);
    return 0;
}

/* Reads at most `room` bytes of a file. Returns whether it could. */
static int read_bytes(const char *path, void *bytes, size_t room, size_t *length)
{
    FILE *file = fopen(path, "rb");
    if (file == NULL) {
        return fault(path, strerror(errno));
    }
    *length = fread(bytes, 1, room, file);
    int done = ferror(file) ? fault(path, strerror(errno)) : 1;
    fclose(file);
    return done;
}

/* Steps over blanks and remarks. */
static const char *skipped(const char *text)
{
    for (text += strspn(text, BLANKS); *text == '#'; text += strspn(text, BLANKS)) {
        text += strcspn(text, "\n");
    }
    return text;
}

/* Reads a part of a number and goes on behind it. Returns whether there is one, and within 16 bits. */
static int read_part(const char **text, int16_t *part)
{
    char *end;
    long value = strtol(*text, &end, 10);
    int is_part = end != *text && value >= INT16_MIN && value <= INT16_MAX;
    *text = end;
    *part = is_part ? (int16_t)value : 0;
    return is_part;
}

/* Reads a number as -123+45i and goes on behind it. Returns whether there is one. */
static int read_target(const char **text, struct hubqr_sample *target)
{
    *text = skipped(*text);
    if (!read_part(text, &target->re) || (**text != '+' && **text != '-') || !read_part(text, &target->im) || **text != 'i') {
        return 0;
    }
    ++*text;
    return **text == '\0' || strchr(ENDS, **text) != NULL;
}

/* Reads the targets. Returns whether the text has eight and nothing else. */
static int read_targets(const char *path, struct hubqr_snapshot *targets)
{
    static char text[TEXT_ROOM];
    size_t length;
    if (!read_bytes(path, text, TEXT_ROOM, &length)) {
        return 0;
    }
    if (length == TEXT_ROOM || memchr(text, '\0', length) != NULL) {
        return fault(path, "not a text of less than 64 KiB");
    }
    text[length] = '\0';
    const char *rest = text;
    int read = 1;
    for (int k = 0; read && k < HUBQR_ANTENNAS; k++) {
        read = read_target(&rest, &targets->samples[k]);
    }
    return read && *skipped(rest) == '\0' ? 1 : fault(path, "not eight numbers as -123+45i, with parts from -32768 to 32767");
}

int main(int argc, char **argv)
{
    /* One byte more than a record has, so that a file that is too long is seen to be. */
    static uint8_t record[HUBQR_RESULT_RECORD_BYTES + 1];
    struct hubqr_snapshot targets;
    size_t length;
    if (argc != 3) {
        fprintf(stderr, "usage: weights RESULT TARGETS\n");
        return 2;
    }
    if (!read_bytes(argv[1], record, sizeof record, &length) || !read_targets(argv[2], &targets)) {
        return 1;
    }
    struct hubqr_weights_reply reply = hubqr_weights(record, length, targets);
    if (reply.number != HUBQR_ACCEPTED) {
        fprintf(stderr, "weights: %s: refused with number %u: %s\n", argv[1], (unsigned)reply.number,
                hubqr_refusal_words(reply.number));
        return 1;
    }
    for (int k = 0; k < HUBQR_ANTENNAS; k++) {
        printf("antenna %d: %.17g %.17g\n", k, reply.weights[k].re, reply.weights[k].im);
    }
    if (fflush(stdout) != 0 || ferror(stdout)) {
        fault("standard output", "not everything could be written");
        return 1;
    }
    return 0;
}
