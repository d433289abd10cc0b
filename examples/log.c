/*
 * A hub keeps a log of its days in a buffer of 16,384 bytes: each day it sweeps out what is too old, then adds its heard byte, on
 * every third day a refusal, and its result. At the end it prints what the log holds.
 *
 *   cc -std=c11 -Iinclude examples/log.c build/libhubqr.a -o build/log
 *   build/log FILE DAYS [OUT]
 *
 * FILE is the result record that is added each day; any other file is refused each day, which is printed. DAYS is a whole number.
 * The used bytes of the log are written to OUT, where `record log OUT` lists them.
 */
#include "hubqr.h"

#include <errno.h>
#include <stdio.h>
#include <stdlib.h>
#include <string.h>

/* Room for seven results, ninety heard bytes and the refusals of thirty days, which is all that stays. */
enum { ROOM = 16384 };

/* The first day, 4 October 2024, and the most digits that DAYS may have. */
enum { FIRST_DAY = 20000, MOST_DIGITS = 4 };

/* All antennas are heard on even days, and four on odd ones. No antenna is heard in a matrix of every third day. */
enum { HEARD_EVEN = 0xff, HEARD_ODD = 0x0f, REFUSED_EVERY = 3 };

/* The log, and what a result is added from: one byte more than a record has, so that a file that is too long is seen to be. */
struct hub {
    uint8_t buffer[ROOM];
    size_t used;
    uint8_t result[HUBQR_RESULT_RECORD_BYTES + 1];
    size_t length;
};

/* Says what is wrong with a file. Returns 0, which stands for failed. */
static int fault(const char *path, const char *what)
{
    fprintf(stderr, "log: %s: %s\n", path, what);
    return 0;
}

/* Reads the file that is added each day. Returns whether it could. */
static int read_file(const char *path, struct hub *hub)
{
    FILE *file = fopen(path, "rb");
    if (file == NULL) {
        return fault(path, strerror(errno));
    }
    hub->length = fread(hub->result, 1, sizeof hub->result, file);
    int done = ferror(file) ? fault(path, strerror(errno)) : 1;
    fclose(file);
    return done;
}

/* Reads a number of days. Returns whether the text is one. */
static int read_days(const char *text, uint32_t *days)
{
    size_t digits = strspn(text, "0123456789");
    *days = 0;
    if (digits == 0 || digits > MOST_DIGITS || text[digits] != '\0') {
        return 0;
    }
    *days = (uint32_t)strtoul(text, NULL, 10);
    return 1;
}

/* Prints that a call was refused, if it was. The log has not changed then, nor has its used count. */
static void print_refusal(uint32_t day, const char *what, uint8_t number)
{
    if (number != HUBQR_ACCEPTED) {
        printf("day %lu: %s refused with %u: %s\n", (unsigned long)day, what, (unsigned)number, hubqr_refusal_words(number));
    }
}

static void add(struct hub *hub, uint32_t kind, uint32_t day, const char *what, const uint8_t *body, size_t length)
{
    print_refusal(day, what, hubqr_log_add_at(kind, day, body, length, &hub->used, hub->buffer, ROOM));
}

/* One day of the hub. The sweep comes first, so that what it frees is used again on the same day. */
static void keep_day(struct hub *hub, uint32_t day)
{
    uint8_t heard = day % 2 == 0 ? HEARD_EVEN : HEARD_ODD, refusal = HUBQR_NONE_HEARD;
    print_refusal(day, "sweep", hubqr_log_sweep_at(day, &hub->used, hub->buffer, ROOM));
    add(hub, HUBQR_LOG_HEARD, day, "heard byte", &heard, 1);
    if (day % REFUSED_EVERY == 0) {
        add(hub, HUBQR_LOG_REFUSAL, day, "refusal", &refusal, 1);
    }
    add(hub, HUBQR_LOG_RESULT, day, "result", hub->result, hub->length);
}

/* Prints a line for each entry, and how full the log is. Returns whether the log could be read to its end. */
static int print_log(const struct hub *hub)
{
    unsigned long entries = 0;
    for (size_t at = 0; at < hub->used; entries++) {
        struct hubqr_log_entry entry = hubqr_log_next(at, hub->used, hub->buffer, ROOM);
        if (entry.number != HUBQR_ACCEPTED) {
            return fault("the log", hubqr_refusal_words(entry.number));
        }
        printf("%lu kind %lu, %zu bytes\n", (unsigned long)entry.day, (unsigned long)entry.kind, entry.body_len);
        at = entry.next;
    }
    printf("%zu of %d bytes used, %lu entries\n", hub->used, ROOM, entries);
    return 1;
}

/* Writes the used bytes, and none behind them, where what was swept may still stand. Returns whether it could. */
static int write_file(const char *path, const struct hub *hub)
{
    FILE *file = fopen(path, "wb");
    if (file == NULL) {
        return fault(path, strerror(errno));
    }
    int written = fwrite(hub->buffer, 1, hub->used, file) == hub->used;
    return fclose(file) == 0 && written ? 1 : fault(path, strerror(errno));
}

/* Whether all that was printed has been written. */
static int written(void)
{
    if (fflush(stdout) != 0 || ferror(stdout)) {
        return fault("standard output", "not everything could be written");
    }
    return 1;
}

int main(int argc, char **argv)
{
    static struct hub hub;
    uint32_t days;
    if (argc < 3 || argc > 4 || !read_days(argv[2], &days)) {
        fprintf(stderr, "usage: log FILE DAYS [OUT]    DAYS of at most %d digits\n", MOST_DIGITS);
        return 2;
    }
    if (!read_file(argv[1], &hub)) {
        return 1;
    }
    for (uint32_t n = 0; n < days; n++) {
        keep_day(&hub, FIRST_DAY + n);
    }
    int printed = print_log(&hub) && written();
    int kept = argc < 4 || write_file(argv[3], &hub);
    return printed && kept ? 0 : 1;
}
