/*
 * Whether results are right for a matrix, whoever wrote them: reads a matrix record and result records, and prints yes or no for
 * each.
 *
 *   cc -std=c11 -Iinclude examples/verify.c build/libhubqr.a -o build/verify
 *   build/verify MATRIX RESULT..
 *
 * The exit status is 0 when all get yes, 1 when one gets no, and 2 when one gets neither, since it is refused or cannot be read.
 * A script can so go by the status alone.
 */
#include "hubqr.h"

#include <stdio.h>

/* The exit statuses. Of several results the worst counts. */
enum { YES = 0, NO = 1, NEITHER = 2 };

/* A file's bytes. There is room for one more than the longest record has, so that a file that is too long is seen to be. */
struct bytes {
    uint8_t bytes[HUBQR_RESULT_RECORD_BYTES + 1];
    size_t length;
};

/* Reads a file. Returns whether it could, and says so if not. */
static int read_file(const char *path, struct bytes *read)
{
    FILE *file = fopen(path, "rb");
    int done = 0;
    if (file != NULL) {
        read->length = fread(read->bytes, 1, sizeof read->bytes, file);
        done = !ferror(file);
        fclose(file);
    }
    if (!done) {
        fprintf(stderr, "verify: %s cannot be read\n", path);
    }
    return done;
}

/* Prints the verdict on one result. Returns the exit status that it alone would have. */
static int print(const char *path, struct hubqr_verdict verdict)
{
    if (verdict.number != HUBQR_ACCEPTED) {
        printf("%s: refused with number %u: %s\n", path, (unsigned)verdict.number, hubqr_refusal_words(verdict.number));
        return NEITHER;
    }
    printf("%s: %s\n", path, verdict.yes ? "yes" : "no");
    return verdict.yes ? YES : NO;
}

int main(int argc, char **argv)
{
    static struct bytes matrix, result;
    int status = YES;
    if (argc < 3) {
        fprintf(stderr, "usage: verify MATRIX RESULT..\n");
        return NEITHER;
    }
    if (!read_file(argv[1], &matrix)) {
        return NEITHER;
    }
    for (int n = 2; n < argc; n++) {
        int own = NEITHER;
        if (read_file(argv[n], &result)) {
            own = print(argv[n], hubqr_verify(matrix.bytes, matrix.length, result.bytes, result.length));
        }
        status = own > status ? own : status;
    }
    if (fflush(stdout) != 0 || ferror(stdout)) {
        fprintf(stderr, "verify: standard output: not everything could be written\n");
        return NEITHER;
    }
    return status;
}
