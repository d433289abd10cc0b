/*
 * A hub serves its eight sectors by one desk: gives each a share of a round, hands in a record for each, requests turns for all
 * of them in round after round until their jobs are finished, and compares each result, byte for byte, with what Whole makes of
 * the same record. One sector requests all that it can and more, and the others are served all the same. Another one has its
 * next matrix early: it is handed in while the first is worked, waits in the desk, and is brought in when the first is fetched.
 * All this is done for the operator. A viewer and a fitter look at the first result of that sector before the operator has
 * fetched it: the viewer gets the heard byte and no result, and the fitter the result, which leaves the next matrix waiting.
 *
 *   cc -std=c11 -Iinclude examples/desk.c build/libhubqr.a -o build/desk
 *   build/desk [RECORD...]
 *
 * The records, eight at most, are those of sectors 0, 1 and on; a sector without one is never loaded. The last of them is also
 * the one that comes early. Without an argument it takes sample records, seen from the top of the repository. One of them is
 * refused, so its sector is never loaded either.
 */
#include "hubqr.h"

#include <errno.h>
#include <stdio.h>
#include <string.h>

#define RECORDS "examples/records/"

/* Sectors 0 and 5 are busy and get more than the others. What the others have at a new desk would be too many beside that. */
static const struct hubqr_shares TOO_MANY = {{35, 15, 15, 15, 15, 25, 15, 15}};
static const struct hubqr_shares SHARES = {{35, 10, 10, 10, 10, 25, 10, 10}};

/* The sector that requests all 120 turns of each round, twice. The others request their share. */
enum { GREEDY = 5 };

/* The sector whose next matrix is early, and the round in which it is handed in. */
enum { EARLY = 0, EARLY_ROUND = 2 };

/* The records of sectors 0 to 7 where none is named. */
static const char *const SAMPLES[HUBQR_SECTORS] = {
    RECORDS "hermitian.bin", RECORDS "loose-plug.bin", RECORDS "extremes.bin", RECORDS "single.bin",
    RECORDS "zeros.bin",     RECORDS "hermitian.bin",  RECORDS "extremes.bin", RECORDS "loose-plug.bin",
};

/* A record as it was read. There is room for one byte more than a record has, so that a hand-in sees a file that is too long. */
struct matrix {
    const char *path;
    uint8_t record[HUBQR_MATRIX_RECORD_BYTES + 1];
    size_t length;
};

/* What the hub keeps for a sector beside the desk. */
struct sector {
    struct matrix matrix; /* the one that is worked */
    int32_t area[HUBQR_AREA_WORDS];
    unsigned rounds; /* those in which it was served */
};

struct hub {
    struct hubqr_desk desk;
    struct sector sectors[HUBQR_SECTORS];
    struct matrix next; /* the one that comes early */
};

/* Says what is wrong with a file. Returns 0, which stands for failed. */
static int fault(const char *path, const char *what)
{
    fprintf(stderr, "desk: %s: %s\n", path, what);
    return 0;
}

/* Reads a record. Returns whether it could. */
static int read_record(struct matrix *matrix)
{
    FILE *file = fopen(matrix->path, "rb");
    if (file == NULL) {
        return fault(matrix->path, strerror(errno));
    }
    matrix->length = fread(matrix->record, 1, sizeof matrix->record, file);
    int done = ferror(file) ? fault(matrix->path, strerror(errno)) : 1;
    fclose(file);
    return done;
}

static void print_refusal(uint8_t number)
{
    printf("refused with number %u: %s\n", (unsigned)number, hubqr_refusal_words(number));
}

/* Sets the shares, which count from the next round on. If they are refused, the desk keeps those that it has. */
static void set_shares(struct hub *hub, struct hubqr_shares shares)
{
    uint8_t number = hubqr_desk_set_shares_at(HUBQR_OPERATOR, &hub->desk, shares);
    printf("shares");
    for (uint32_t k = 0; k < HUBQR_SECTORS; k++) {
        printf(" %u", (unsigned)shares.shares[k]);
    }
    printf(": ");
    if (number == HUBQR_ACCEPTED) {
        printf("set\n");
    } else {
        print_refusal(number);
    }
}

/*
 * Hands in a matrix for a sector: it is loaded or waits, and the desk tells which. A refused hand-in leaves the sector as it was,
 * with what waits for it, and the others are served all the same.
 */
static void hand_in(struct hub *hub, uint32_t k, const struct matrix *matrix)
{
    struct sector *sector = &hub->sectors[k];
    struct hubqr_desk_load_reply reply = hubqr_desk_hand_in_at(HUBQR_OPERATOR, &hub->desk, k, matrix->record, matrix->length,
                                                               sector->area, HUBQR_AREA_WORDS);
    printf("sector %lu: %s: ", (unsigned long)k, matrix->path);
    if (reply.number != HUBQR_ACCEPTED) {
        print_refusal(reply.number);
    } else if (hub->desk.waits[k]) {
        unsigned long turn = reply.job.turn;
        printf("waits, heard byte %02X and turn number %lu as they stand\n", (unsigned)reply.heard, turn);
    } else {
        sector->matrix = *matrix;
        printf("loaded, heard byte %02X\n", (unsigned)reply.heard);
    }
}

static struct hubqr_desk_run_reply run(struct hub *hub, uint32_t k, uint16_t request)
{
    return hubqr_desk_run_at(HUBQR_OPERATOR, &hub->desk, k, request, hub->sectors[k].area, HUBQR_AREA_WORDS);
}

/*
 * Requests turns for each sector that is not finished, one after the other, and prints what is granted to each. The greedy one
 * gets its share, as the others do, and is refused when it requests more: none of that is taken from those that come after it.
 */
static void serve_round(struct hub *hub, unsigned round)
{
    uint8_t refused = HUBQR_ACCEPTED;
    printf("%5u", round);
    for (uint32_t k = 0; k < HUBQR_SECTORS; k++) {
        if (hub->desk.jobs[k].turn == HUBQR_TURNS) {
            printf("  %3s", "-");
            continue;
        }
        uint16_t request = k == GREEDY ? HUBQR_ROUND_TURNS : hub->desk.shares[k];
        printf("  %3lu", (unsigned long)run(hub, k, request).count);
        hub->sectors[k].rounds++;
        if (k == GREEDY) {
            refused = run(hub, k, request).number;
        }
    }
    if (refused != HUBQR_ACCEPTED) {
        printf("  %7u", (unsigned)refused);
    }
    printf("\n");
}

/* Begins a round. Returns whether that was accepted. */
static int begin(struct hub *hub)
{
    return hubqr_desk_begin_at(HUBQR_OPERATOR, &hub->desk) == HUBQR_ACCEPTED;
}

static int all_finished(const struct hubqr_desk *desk)
{
    int finished = 1;
    for (uint32_t k = 0; k < HUBQR_SECTORS; k++) {
        finished = finished && desk->jobs[k].turn == HUBQR_TURNS;
    }
    return finished;
}

/* Fetches the result of a sector for a role. Returns the number. */
static uint8_t fetch(struct hub *hub, enum hubqr_role role, uint32_t k, uint8_t result[HUBQR_RESULT_RECORD_BYTES])
{
    int32_t *area = hub->sectors[k].area;
    return hubqr_desk_fetch_at(role, &hub->desk, k, area, HUBQR_AREA_WORDS, result, HUBQR_RESULT_RECORD_BYTES);
}

/* Whether the result that is fetched for a sector is the one that Whole makes of its record. */
static int fetched_as_whole(struct hub *hub, enum hubqr_role role, uint32_t k)
{
    static int32_t area[HUBQR_AREA_WORDS];
    static uint8_t fetched[HUBQR_RESULT_RECORD_BYTES];
    static uint8_t expected[HUBQR_RESULT_RECORD_BYTES];
    const struct matrix *matrix = &hub->sectors[k].matrix;
    uint8_t number = fetch(hub, role, k, fetched);
    struct hubqr_whole_reply whole =
        hubqr_whole(matrix->record, matrix->length, area, HUBQR_AREA_WORDS, expected, sizeof expected);
    return number == HUBQR_ACCEPTED && whole.number == HUBQR_ACCEPTED && memcmp(fetched, expected, sizeof expected) == 0;
}

/*
 * Prints what became of a sector that was loaded. Returns whether its result is right, and took no more rounds than 120 divided
 * by its share, rounded up. Its heard byte and job are looked at before Fetch, which may bring in the next matrix.
 */
static int print_result(struct hub *hub, uint32_t k)
{
    unsigned rounds = hub->sectors[k].rounds, share = hub->desk.shares[k], most = (HUBQR_TURNS + share - 1) / share;
    printf("heard byte %02X, %lu turns made, ", (unsigned)hub->desk.heard[k], (unsigned long)hub->desk.jobs[k].made);
    printf("share %u, finished in %u rounds of at most %u, ", share, rounds, most);
    int same = fetched_as_whole(hub, HUBQR_OPERATOR, k);
    printf("the result %s the one that Whole makes\n", same ? "is" : "is not");
    return same && rounds <= most;
}

/*
 * Prints what a viewer gets of the sector whose next matrix waits: its heard byte, and not its result. Returns whether the result
 * is refused.
 */
static int print_viewer(struct hub *hub)
{
    static uint8_t result[HUBQR_RESULT_RECORD_BYTES];
    struct hubqr_desk_heard_reply reply = hubqr_desk_heard_at(HUBQR_VIEWER, &hub->desk, EARLY);
    printf("viewer of sector %d: heard byte %02X, and the result is ", EARLY, (unsigned)reply.heard);
    uint8_t number = fetch(hub, HUBQR_VIEWER, EARLY, result);
    if (number == HUBQR_ACCEPTED) {
        printf("fetched\n");
    } else {
        print_refusal(number);
    }
    return number == HUBQR_NOT_ALLOWED;
}

/*
 * Prints what a fitter gets of it: the result, as often as it likes. Returns whether it is right, and the next matrix goes on
 * waiting.
 */
static int print_fitter(struct hub *hub)
{
    int same = fetched_as_whole(hub, HUBQR_FITTER, EARLY) && fetched_as_whole(hub, HUBQR_FITTER, EARLY);
    printf("fitter of sector %d: the result, fetched twice, %s the one that Whole makes, ", EARLY, same ? "is" : "is not");
    int waits = hub->desk.waits[EARLY];
    printf("and the next matrix %s waiting\n", waits ? "goes on" : "ends");
    return same && waits;
}

/*
 * Fetches the first result of the sector whose next matrix waits, once it is finished: for a viewer, for a fitter and then for
 * the operator, whose Fetch brings that matrix in. Returns whether all of it is right.
 */
static int fetch_early(struct hub *hub)
{
    struct sector *sector = &hub->sectors[EARLY];
    if (!hub->desk.waits[EARLY] || hub->desk.jobs[EARLY].turn < HUBQR_TURNS) {
        return 1;
    }
    int viewed = print_viewer(hub);
    int fitted = print_fitter(hub);
    printf("sector %d: ", EARLY);
    int right = print_result(hub, EARLY);
    sector->matrix = hub->next;
    sector->rounds = 0;
    printf("sector %d: %s: brought in, heard byte %02X\n", EARLY, hub->next.path, (unsigned)hub->desk.heard[EARLY]);
    return viewed && fitted && right;
}

/*
 * Serves rounds until all jobs are finished. The first is begun as well: the one that a new desk stands at the start of has the
 * first shares, 15 for each sector. Returns whether the result that is fetched on the way is right.
 */
static int serve(struct hub *hub)
{
    int right = 1;
    printf("\nnumber %d: %s\n", HUBQR_COUNT_USED_UP, hubqr_refusal_words(HUBQR_COUNT_USED_UP));
    printf("turns granted to sectors 0 to 7, and what sector %d is refused with when it requests more\n", GREEDY);
    printf("round    0    1    2    3    4    5    6    7  refused\n");
    for (unsigned round = 1; !all_finished(&hub->desk) && begin(hub); round++) {
        if (round == EARLY_ROUND) {
            hand_in(hub, EARLY, &hub->next);
        }
        serve_round(hub, round);
        right = fetch_early(hub) && right;
    }
    printf("\n");
    return right;
}

/*
 * Prints what became of each sector, and what is said of sector 8, which is not there. Returns whether all results are right. A
 * sector never loaded is known by its heard byte, 0. Fetch would not tell, since its job is (120, 0), as if it were finished.
 */
static int print_results(struct hub *hub)
{
    int right = 1;
    for (uint32_t k = 0; k <= HUBQR_SECTORS; k++) {
        struct hubqr_desk_heard_reply reply = hubqr_desk_heard_at(HUBQR_OPERATOR, &hub->desk, k);
        printf("sector %lu: ", (unsigned long)k);
        if (reply.number != HUBQR_ACCEPTED) {
            print_refusal(reply.number);
        } else if (reply.heard == 0) {
            printf("heard byte 00, never loaded\n");
        } else {
            right = print_result(hub, k) && right;
        }
    }
    return right;
}

/* Whether all that was printed has been written. */
static int written(void)
{
    if (fflush(stdout) != 0 || ferror(stdout)) {
        return fault("standard output", "not everything could be written");
    }
    return 1;
}

int main(int argc, char **argv)
{
    static struct hub hub;
    if (argc > 1 + HUBQR_SECTORS) {
        fprintf(stderr, "usage: desk [RECORD...]    %d records at most\n", HUBQR_SECTORS);
        return 2;
    }
    static struct matrix matrices[HUBQR_SECTORS];
    uint32_t count = argc > 1 ? (uint32_t)argc - 1 : HUBQR_SECTORS;
    for (uint32_t k = 0; k < count; k++) {
        matrices[k].path = argc > 1 ? argv[1 + k] : SAMPLES[k];
        if (!read_record(&matrices[k])) {
            return 1;
        }
    }
    hub.next = matrices[count - 1];
    hub.desk = hubqr_desk_new();
    set_shares(&hub, TOO_MANY);
    set_shares(&hub, SHARES);
    for (uint32_t k = 0; k < count; k++) {
        hand_in(&hub, k, &matrices[k]);
    }
    int fetched = serve(&hub);
    int right = print_results(&hub);
    return written() && fetched && right ? 0 : 1;
}
