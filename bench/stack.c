/*
 * How much stack each call takes: the bytes from the stack pointer at the call down to the lowest that it writes, its return
 * address among them. What is handed over by value stands above the pointer and does not count. Each call is made on a stack of
 * its own that is painted before. stack.sh compiles this so that the pointer stays where it is between note and the call.
 */
#include "hubqr.h"

#include <stdio.h>
#include <stdlib.h>
#include <string.h>
#include <ucontext.h>

enum { STACK_BYTES = 1 << 16, PAINT = 0xa5 };

static uint8_t stack[STACK_BYTES];
static uint8_t *pointer;
static ucontext_t host;

static uint8_t record[HUBQR_MATRIX_RECORD_BYTES];
static int32_t area[HUBQR_AREA_WORDS];
static uint8_t result[HUBQR_RESULT_RECORD_BYTES];
static uint8_t log_buffer[2 * HUBQR_LOG_RESULT_BYTES];
static const uint8_t heard = 0xff;
static struct hubqr_snapshot samples;
static struct hubqr_sums sums;
static struct hubqr_desk desk;
static const struct hubqr_shares shares = {{0, 0, 0, 0, 0, 0, 0, HUBQR_ROUND_TURNS}};
static const struct hubqr_job begun = {0, 0}, finished = {HUBQR_TURNS, 0};

/* What the calls answer, kept so that each is made. */
static struct {
    struct hubqr_load_reply load;
    struct hubqr_run_reply run;
    struct hubqr_read_reply read;
    struct hubqr_whole_reply whole;
    struct hubqr_add_reply add;
    struct hubqr_verdict verdict;
    struct hubqr_weights_reply weights;
    struct hubqr_log_reply log;
    struct hubqr_log_entry entry;
    struct hubqr_desk_reply desk;
    struct hubqr_desk_load_reply desk_load;
    struct hubqr_desk_run_reply desk_run;
    struct hubqr_desk_heard_reply desk_heard;
    uint8_t number;
} reply;

static inline __attribute__((always_inline)) void note(void)
{
    __asm__ volatile("mov %%rsp, %0" : "=m"(pointer) : : "memory");
}

/* A function that makes one call and keeps its number. */
#define CALL(name, call, answered) \
    static void name(void)         \
    {                              \
        note();                    \
        call;                      \
        reply.number = answered;   \
    }

CALL(load, reply.load = hubqr_load(record, sizeof record, area, HUBQR_AREA_WORDS), reply.load.number)
CALL(run, reply.run = hubqr_run(begun, HUBQR_TURNS, area, HUBQR_AREA_WORDS), reply.run.number)
CALL(fetch, reply.number = hubqr_fetch(finished, area, HUBQR_AREA_WORDS, result, sizeof result), reply.number)
CALL(read_back, reply.read = hubqr_read(result, sizeof result, area, HUBQR_AREA_WORDS), reply.read.number)
CALL(whole, reply.whole = hubqr_whole(record, sizeof record, area, HUBQR_AREA_WORDS, result, sizeof result),
     reply.whole.number)
CALL(verify, reply.verdict = hubqr_verify(record, sizeof record, result, sizeof result), reply.verdict.number)
CALL(none_added, sums = hubqr_sums_none(), HUBQR_ACCEPTED)
CALL(add, reply.add = hubqr_add_snapshot(samples, sums), reply.add.number)
CALL(write_matrix, reply.number = hubqr_write_matrix(reply.add.sums, record, sizeof record), reply.number)
CALL(weights, reply.weights = hubqr_weights(result, sizeof result, samples), reply.weights.number)
CALL(log_heard, reply.log = hubqr_log_add(HUBQR_LOG_HEARD, 0, &heard, 1, 0, log_buffer, sizeof log_buffer), reply.log.number)
CALL(log_result,
     reply.log = hubqr_log_add(HUBQR_LOG_RESULT, 1, result, sizeof result, reply.log.used, log_buffer, sizeof log_buffer),
     reply.log.number)
CALL(log_next, reply.entry = hubqr_log_next(0, reply.log.used, log_buffer, sizeof log_buffer), reply.entry.number)
CALL(log_sweep, reply.log = hubqr_log_sweep(HUBQR_LOG_HEARD_DAYS, reply.log.used, log_buffer, sizeof log_buffer),
     reply.log.number)
CALL(desk_new, desk = hubqr_desk_new(), HUBQR_ACCEPTED)
CALL(desk_set_shares, reply.desk = hubqr_desk_set_shares(HUBQR_OPERATOR, desk, shares), reply.desk.number)
CALL(desk_begin, reply.desk = hubqr_desk_begin(HUBQR_OPERATOR, reply.desk.desk), reply.desk.number)
CALL(desk_load,
     reply.desk_load =
         hubqr_desk_hand_in(HUBQR_OPERATOR, reply.desk.desk, 7, record, sizeof record, area, HUBQR_AREA_WORDS),
     reply.desk_load.number)
CALL(desk_wait,
     reply.desk_load =
         hubqr_desk_hand_in(HUBQR_OPERATOR, reply.desk_load.desk, 7, record, sizeof record, area, HUBQR_AREA_WORDS),
     reply.desk_load.number)
CALL(desk_run,
     reply.desk_run = hubqr_desk_run(HUBQR_OPERATOR, reply.desk_load.desk, 7, HUBQR_TURNS, area, HUBQR_AREA_WORDS),
     reply.desk_run.number)
CALL(desk_fetch,
     reply.desk = hubqr_desk_fetch(HUBQR_OPERATOR, reply.desk_run.desk, 6, area, HUBQR_AREA_WORDS, result, sizeof result),
     reply.desk.number)
CALL(desk_next,
     reply.desk = hubqr_desk_fetch(HUBQR_OPERATOR, reply.desk_run.desk, 7, area, HUBQR_AREA_WORDS, result, sizeof result),
     reply.desk.number)
CALL(desk_heard, reply.desk_heard = hubqr_desk_heard(HUBQR_OPERATOR, desk, 7), reply.desk_heard.number)

/* Each call, in a sequence in which it is accepted. Of the two sectors that fetch a result from the area one has none waiting. */
static const struct {
    const char *name;
    void (*call)(void);
} calls[] = {
    {"Load", load},
    {"Run", run},
    {"Fetch", fetch},
    {"Read", read_back},
    {"Whole", whole},
    {"Verify", verify},
    {"Sums of none", none_added},
    {"Adding a snapshot", add},
    {"Writing the record", write_matrix},
    {"Weights", weights},
    {"Log, heard byte", log_heard},
    {"Log, result", log_result},
    {"Log, reading", log_next},
    {"Sweep", log_sweep},
    {"A new desk", desk_new},
    {"Setting shares", desk_set_shares},
    {"Beginning a round", desk_begin},
    {"Hand-in, loaded", desk_load},
    {"Hand-in, waits", desk_wait},
    {"Run at the desk", desk_run},
    {"Fetch at the desk", desk_fetch},
    {"Fetch, brings in", desk_next},
    {"Heard byte at the desk", desk_heard},
};

/* The bytes of stack that a call takes. */
static long taken(void (*call)(void))
{
    ucontext_t guest;
    memset(stack, PAINT, sizeof stack);
    if (getcontext(&guest) != 0) {
        abort();
    }
    guest.uc_stack.ss_sp = stack;
    guest.uc_stack.ss_size = sizeof stack;
    guest.uc_link = &host;
    makecontext(&guest, call, 0);
    if (swapcontext(&host, &guest) != 0) {
        abort();
    }
    uint8_t *lowest = stack;
    while (*lowest == PAINT) {
        lowest++;
    }
    return pointer - lowest;
}

/* A matrix record and samples in which antennas are heard. */
static void fill(void)
{
    for (size_t k = 0; k < sizeof record; k++) {
        record[k] = (uint8_t)(k * k % 127);
    }
    record[0] = HUBQR_KIND_MATRIX;
    memset(&samples, 0x11, sizeof samples);
}

int main(int argc, char **argv)
{
    int markdown = argc == 2 && strcmp(argv[1], "--markdown") == 0;
    fill();
    puts(markdown ? "| call | bytes of stack |\n|---|--:|" : "call                     bytes of stack");
    for (size_t k = 0; k < sizeof calls / sizeof *calls; k++) {
        long bytes = taken(calls[k].call);
        if (reply.number != HUBQR_ACCEPTED) {
            fprintf(stderr, "%s: refused with %d\n", calls[k].name, reply.number);
            return EXIT_FAILURE;
        }
        printf(markdown ? "| %s | %ld |\n" : "%-24s %14ld\n", calls[k].name, bytes);
    }
    return EXIT_SUCCESS;
}
