/* Snapshots: the sums that they add up to, the matrix record that the sums give, and each refusal, by value and by pointer. */
#include "check.h"

#include <stdlib.h>
#include <string.h>

/* A sum may be this far from 0 for each snapshot. */
#define REACH (INT64_C(1) << 31)

/* The first, a middle and the last of the sums: what is tested of a single sum is tested of each of them. */
static const int places[] = {0, 65, HUBQR_SUM_WORDS - 1};
enum { PLACES = sizeof places / sizeof *places };

/* Where part q of element (i, j) stands, among the sums and among the parts of a record. */
static int place(int i, int j, int q)
{
    return 2 * (HUBQR_ANTENNAS * i + j) + q;
}

/* Part q of a sample times the conjugate of another. */
static int64_t product(struct hubqr_sample a, struct hubqr_sample b, int q)
{
    return q == 0 ? (int64_t)a.re * b.re + (int64_t)a.im * b.im : (int64_t)a.im * b.re - (int64_t)a.re * b.im;
}

/* A snapshot of equal samples. */
static struct hubqr_snapshot alike(int16_t re, int16_t im)
{
    struct hubqr_snapshot snapshot;
    for (int i = 0; i < HUBQR_ANTENNAS; i++) {
        snapshot.samples[i] = (struct hubqr_sample){re, im};
    }
    return snapshot;
}

/* Snapshot k of many that differ, with both ends of the 16-bit range in each. */
static struct hubqr_snapshot mixed(int k)
{
    struct hubqr_snapshot snapshot = alike(-32768, 32767);
    for (int i = 1; i < HUBQR_ANTENNAS; i++) {
        int re = (k * 7919 + i * 44449 + 1) % 65536 - 32768;
        int im = (k * 27413 + i * 6007 + 5) % 65536 - 32768;
        snapshot.samples[i] = (struct hubqr_sample){(int16_t)re, (int16_t)im};
    }
    return snapshot;
}

/* Sums that are 0 but for one. */
static struct hubqr_sums with_sum(uint32_t count, int at, int64_t sum)
{
    struct hubqr_sums sums = hubqr_sums_none();
    sums.count = count;
    sums.words[at] = sum;
    return sums;
}

static int same_sums(const struct hubqr_sums *a, const struct hubqr_sums *b)
{
    return a->count == b->count && memcmp(a->words, b->words, sizeof a->words) == 0;
}

/* Adds a snapshot in both forms, and checks the count and all 128 sums. */
static struct hubqr_sums added(const char *what, struct hubqr_sums sums, struct hubqr_snapshot snapshot)
{
    struct hubqr_sums due = sums;
    due.count++;
    for (int n = 0; n < HUBQR_SUM_WORDS; n++) {
        due.words[n] += product(snapshot.samples[n / 16], snapshot.samples[n / 2 % 8], n % 2);
    }
    struct hubqr_add_reply reply = hubqr_add_snapshot(snapshot, sums);
    CHECK(what, reply.number == HUBQR_ACCEPTED);
    CHECK(what, same_sums(&reply.sums, &due));
    CHECK(what, hubqr_add_snapshot_at(&sums, snapshot) == HUBQR_ACCEPTED);
    CHECK(what, same_sums(&sums, &due));
    return sums;
}

/* Adding refuses in both forms, and the sums are as they were. */
static void refuse_add(const char *what, struct hubqr_sums sums)
{
    struct hubqr_sums kept = sums;
    struct hubqr_add_reply reply = hubqr_add_snapshot(mixed(1), sums);
    CHECK(what, reply.number == HUBQR_SUMS_OUT_OF_RANGE);
    CHECK(what, same_sums(&reply.sums, &sums));
    CHECK(what, hubqr_add_snapshot_at(&kept, mixed(1)) == HUBQR_SUMS_OUT_OF_RANGE);
    CHECK(what, same_sums(&kept, &sums));
}

/* What the header says of a part. Division in C is toward zero too. */
static int16_t part_due(const struct hubqr_sums *sums, int n)
{
    int64_t quotient = sums->words[n] / (65536 * (int64_t)sums->count);
    return (int16_t)(quotient > 32767 ? 32767 : quotient);
}

/* Part n of the matrix record in the buffer. */
static int part(int n)
{
    int value = buffer[1 + 2 * n] * 256 + buffer[2 + 2 * n];
    return value < 32768 ? value : value - 65536;
}

/*
 * Writes the record by value into a longer buffer and by pointer into one of 257 bytes, and checks all its bytes and that nothing
 * behind them and no sum is changed.
 */
static void written(const char *what, struct hubqr_sums sums)
{
    uint8_t due[HUBQR_MATRIX_RECORD_BYTES] = {HUBQR_KIND_MATRIX};
    struct hubqr_sums kept = sums;
    for (int i = 0; i < HUBQR_ANTENNAS; i++) {
        for (int j = 0; j < HUBQR_ANTENNAS; j++) {
            set_element(due, i, j, part_due(&sums, place(i, j, 0)), part_due(&sums, place(i, j, 1)));
        }
    }
    scribble();
    remember();
    CHECK(what, hubqr_write_matrix(sums, buffer, BUFFER_LENT) == HUBQR_ACCEPTED);
    CHECK(what, memcmp(buffer, due, sizeof due) == 0);
    CHECK(what, unchanged_from(sizeof due));
    scribble();
    CHECK(what, hubqr_write_matrix_at(&kept, buffer, sizeof due) == HUBQR_ACCEPTED);
    CHECK(what, memcmp(buffer, due, sizeof due) == 0);
    CHECK(what, unchanged_from(sizeof due));
    CHECK(what, same_sums(&kept, &sums));
}

/* Writing refuses in both forms, and no byte of the buffer is changed. */
static void refuse_write(const char *what, struct hubqr_sums sums, uint8_t *lent, size_t length, uint8_t number)
{
    scribble();
    remember();
    CHECK(what, hubqr_write_matrix(sums, lent, length) == number);
    CHECK(what, hubqr_write_matrix_at(&sums, lent, length) == number);
    CHECK(what, unchanged());
}

/* Both calls refuse sums that are out of range. */
static void refuse_sums(const char *what, struct hubqr_sums sums)
{
    refuse_add(what, sums);
    refuse_write(what, sums, buffer, BUFFER_LENT, HUBQR_SUMS_OUT_OF_RANGE);
}

static void test_sums_none(void)
{
    struct hubqr_sums none = hubqr_sums_none();
    int zeros = none.count == 0;
    for (int n = 0; n < HUBQR_SUM_WORDS; n++) {
        zeros &= none.words[n] == 0;
    }
    CHECK("no snapshot added", zeros);
}

/* 1 + 2i times the conjugate of 3 + 4i is 11 + 2i, and the other way round 11 - 2i. */
static void test_conjugate(void)
{
    struct hubqr_snapshot snapshot = alike(0, 0);
    snapshot.samples[0] = (struct hubqr_sample){1, 2};
    snapshot.samples[1] = (struct hubqr_sample){3, 4};
    struct hubqr_sums sums = added("two samples that are not 0", hubqr_sums_none(), snapshot);
    CHECK("sum (0, 0)", sums.words[0] == 5 && sums.words[1] == 0);
    CHECK("sum (0, 1)", sums.words[2] == 11 && sums.words[3] == 2);
    CHECK("sum (1, 0)", sums.words[16] == 11 && sums.words[17] == -2);
    CHECK("sum (1, 1)", sums.words[18] == 25 && sums.words[19] == 0);
}

/* The same samples times 256, so that the sums are 65,536 times as large and give those numbers as parts. */
static void test_one_snapshot(void)
{
    struct hubqr_snapshot snapshot = alike(0, 0);
    snapshot.samples[0] = (struct hubqr_sample){256, 512};
    snapshot.samples[1] = (struct hubqr_sample){768, 1024};
    written("record of one snapshot", added("one snapshot", hubqr_sums_none(), snapshot));
    CHECK("element (0, 0)", part(0) == 5 && part(1) == 0);
    CHECK("element (0, 1)", part(2) == 11 && part(3) == 2);
    CHECK("element (1, 0)", part(16) == 11 && part(17) == -2);
    CHECK("element (1, 1)", part(18) == 25 && part(19) == 0);
    written("record of one mixed snapshot", added("one mixed snapshot", hubqr_sums_none(), mixed(1)));
}

/* Element (j, i) is the conjugate of element (i, j), in the sums and in the record, and adding goes on after writing. */
static void test_many_snapshots(void)
{
    struct hubqr_sums sums = hubqr_sums_none();
    for (int k = 0; k < 50; k++) {
        sums = added("many snapshots", sums, mixed(k));
        written("record after each of many snapshots", sums);
    }
    for (int i = 0; i < HUBQR_ANTENNAS; i++) {
        for (int j = 0; j < HUBQR_ANTENNAS; j++) {
            CHECK("real parts", sums.words[place(i, j, 0)] == sums.words[place(j, i, 0)]);
            CHECK("real parts", part(place(i, j, 0)) == part(place(j, i, 0)));
            CHECK("imaginary parts", sums.words[place(i, j, 1)] == -sums.words[place(j, i, 1)]);
            CHECK("imaginary parts", part(place(i, j, 1)) == -part(place(j, i, 1)));
        }
    }
}

/* The largest products, as often as can be: the real parts are clamped. One more is refused, and writing goes on. */
static void test_most_snapshots(void)
{
    struct hubqr_sums sums = hubqr_sums_none();
    for (uint32_t k = 0; k < HUBQR_SNAPSHOTS_MAX; k++) {
        CHECK("the count", sums.count == k);
        sums = added("samples (-32768, -32768)", sums, alike(-32768, -32768));
    }
    for (int again = 0; again < 2; again++) {
        written("record of 4,096 snapshots", sums);
        for (int n = 0; n < HUBQR_SUM_WORDS; n++) {
            CHECK("largest sums", sums.words[n] == (n % 2 == 0 ? 4096 * REACH : 0));
            CHECK("clamped parts", part(n) == (n % 2 == 0 ? 32767 : 0));
        }
        refuse_add("the 4,097th snapshot", sums);
    }
}

/* One sum, of either sign, at 2^31 times the count and one beyond it, and at the ends of the 64-bit range. */
static void limits_at(int at, uint32_t count)
{
    int64_t limit = REACH * count;
    for (int sign = -1; sign <= 1; sign += 2) {
        struct hubqr_sums sums = with_sum(count, at, sign * limit);
        if (count < HUBQR_SNAPSHOTS_MAX) {
            added("adding to a sum at the limit", sums, mixed(at));
        }
        if (count > 0) {
            written("record of a sum at the limit", sums);
        }
        refuse_sums("a sum beyond the limit", with_sum(count, at, sign * (limit + 1)));
    }
    refuse_sums("the lowest number of 64 bits", with_sum(count, at, INT64_MIN));
    refuse_sums("the highest number of 64 bits", with_sum(count, at, INT64_MAX));
}

static void test_sum_limits(void)
{
    for (int k = 0; k < PLACES; k++) {
        limits_at(places[k], 0);
        limits_at(places[k], 1);
        limits_at(places[k], 7);
        limits_at(places[k], HUBQR_SNAPSHOTS_MAX - 1);
        limits_at(places[k], HUBQR_SNAPSHOTS_MAX);
    }
}

/* With 4,096 snapshots added there is writing and no adding; a larger count is refused for itself, the sums being in range. */
static void test_counts(void)
{
    refuse_add("adding to 4,096", with_sum(HUBQR_SNAPSHOTS_MAX, 0, 1));
    written("record of 4,096", with_sum(HUBQR_SNAPSHOTS_MAX, 0, 1));
    refuse_sums("count 4,097", with_sum(HUBQR_SNAPSHOTS_MAX + 1, 0, 1));
    refuse_sums("count 4,097, sums 0", with_sum(HUBQR_SNAPSHOTS_MAX + 1, 0, 0));
    refuse_sums("the largest count", with_sum(UINT32_MAX, 0, 1));
    refuse_sums("the largest count, sums 0", with_sum(UINT32_MAX, 0, 0));
}

/* 10, then 9, then 7. */
static void test_write_order(void)
{
    struct hubqr_sums none = hubqr_sums_none(), wrong = with_sum(0, 5, 1), more = with_sum(HUBQR_SNAPSHOTS_MAX + 1, 5, 1);
    struct hubqr_sums good = added("one snapshot", none, mixed(1));
    refuse_write("sums out of range, 256 bytes", wrong, buffer, 256, HUBQR_SUMS_OUT_OF_RANGE);
    refuse_write("sums out of range, null", wrong, NULL, 0, HUBQR_SUMS_OUT_OF_RANGE);
    refuse_write("count 4,097, 256 bytes", more, buffer, 256, HUBQR_SUMS_OUT_OF_RANGE);
    refuse_write("count 4,097, null", more, NULL, 0, HUBQR_SUMS_OUT_OF_RANGE);
    refuse_write("none added", none, buffer, BUFFER_LENT, HUBQR_NONE_ADDED);
    refuse_write("none added, 256 bytes", none, buffer, 256, HUBQR_NONE_ADDED);
    refuse_write("none added, null", none, NULL, 0, HUBQR_NONE_ADDED);
    refuse_write("256 bytes", good, buffer, 256, HUBQR_BUFFER_TOO_SHORT);
    refuse_write("0 bytes", good, buffer, 0, HUBQR_BUFFER_TOO_SHORT);
    refuse_write("null", good, NULL, 0, HUBQR_BUFFER_TOO_SHORT);
}

/* What single sums give: toward zero, clamped from above alone. */
static void test_parts(void)
{
    static const struct {
        uint32_t count;
        int64_t sum;
        int part;
    } table[] = {
        {1, 0, 0},
        {1, 65535, 0},
        {1, 65536, 1},
        {1, 131071, 1},
        {1, -65535, 0},
        {1, -65536, -1},
        {1, -65537, -1},
        {1, -131071, -1},
        {1, REACH - 65537, 32766},
        {1, REACH - 65536, 32767},
        {1, REACH, 32767},
        {1, -REACH + 1, -32767},
        {1, -REACH, -32768},
        {3, 3 * 65536 - 1, 0},
        {3, -3 * 65536, -1},
        {4096, 4096 * REACH - 1, 32767},
        {4096, 4096 * REACH, 32767},
        {4096, -4096 * REACH + 1, -32767},
        {4096, -4096 * REACH, -32768},
    };
    for (size_t k = 0; k < sizeof table / sizeof *table; k++) {
        for (int p = 0; p < PLACES; p++) {
            written("record of a single sum", with_sum(table[k].count, places[p], table[k].sum));
            CHECK("part of a single sum", part(places[p]) == table[k].part);
        }
    }
}

/* The record of sums is one that Load and Whole take. */
static void test_record_goes_on(void)
{
    uint8_t record[HUBQR_MATRIX_RECORD_BYTES];
    struct hubqr_sums sums = added("two snapshots", added("one snapshot", hubqr_sums_none(), mixed(1)), mixed(2));
    CHECK("record of two snapshots", hubqr_write_matrix_at(&sums, record, sizeof record) == HUBQR_ACCEPTED);
    struct hubqr_load_reply loaded = hubqr_load(record, sizeof record, area, AREA_LENT);
    CHECK("Load of a written record", loaded.number == HUBQR_ACCEPTED && loaded.heard == 0xff && is_job(loaded.job, 0, 0));
    for (int i = 0; i < HUBQR_ANTENNAS; i++) {
        for (int j = 0; j < HUBQR_ANTENNAS; j++) {
            CHECK("real parts", area[HUBQR_AREA_COLUMNS * i + j] == part_due(&sums, place(i, j, 0)) * 8192);
            CHECK("imaginary parts", area[HUBQR_AREA_COLUMNS * (8 + i) + j] == part_due(&sums, place(i, j, 1)) * 8192);
        }
    }
    struct hubqr_whole_reply factored = hubqr_whole(record, sizeof record, area, AREA_LENT, buffer, BUFFER_LENT);
    CHECK("Whole of a written record", factored.number == HUBQR_ACCEPTED && factored.heard == 0xff);
    CHECK("Whole of a written record", factored.clamps_r == 0 && factored.clamps_q == 0);
    CHECK("Whole writes a result record", buffer[0] == HUBQR_KIND_RESULT);
}

/* The record of sums is written whoever is heard in it, and Load and Whole answer this heard byte for it. */
static void written_and_heard(const char *what, struct hubqr_sums sums, uint8_t heard)
{
    uint8_t record[HUBQR_MATRIX_RECORD_BYTES];
    CHECK(what, hubqr_write_matrix_at(&sums, record, sizeof record) == HUBQR_ACCEPTED);
    check_heard(what, record, heard);
}

/*
 * Antenna k is heard when the mean of its squared magnitudes is at least 17 * 65,536 = 1,114,112, which is 256^2 + 1024^2.
 * 1,114,100, which is 86^2 + 1052^2, is the largest sum of two squares below it.
 */
static const struct hubqr_sample just_heard = {256, -1024}, just_not = {-1052, 86};

static void test_quiet_samples(void)
{
    struct hubqr_snapshot quiet = alike(just_not.re, just_not.im), loud = alike(just_heard.re, just_heard.im);
    struct hubqr_sums none = hubqr_sums_none();
    written_and_heard("silence", added("silence", none, alike(0, 0)), 0);
    written_and_heard("quiet samples", added("quiet samples", none, quiet), 0);
    written_and_heard("samples that are just heard", added("samples that are just heard", none, loud), 0xff);
    written_and_heard("magnitude 1,055", added("magnitude 1,055", none, alike(0, 1055)), 0);
    written_and_heard("magnitude 1,056", added("magnitude 1,056", none, alike(-1056, 0)), 0xff);
    for (int k = 0; k < HUBQR_ANTENNAS; k++) {
        struct hubqr_snapshot one = quiet;
        one.samples[k] = just_heard;
        written_and_heard("one that is just heard", added("one that is just heard", none, one), (uint8_t)(1 << k));
    }
}

/* Of several snapshots the mean counts: a quiet one takes from what is just heard, and a louder one makes up for it. */
static void test_quiet_on_average(void)
{
    struct hubqr_snapshot quiet = alike(just_not.re, just_not.im), loud = alike(just_heard.re, just_heard.im);
    struct hubqr_sums sums = added("two snapshots", added("one snapshot", hubqr_sums_none(), loud), loud);
    written_and_heard("two that are just heard", sums, 0xff);
    sums = added("a quiet snapshot", sums, quiet);
    written_and_heard("a quiet one after two", sums, 0);
    sums = added("a loud snapshot", sums, alike(0, 1056));
    written_and_heard("a louder one after these", sums, 0xff);
}

/* The edge to the unit, for a single sum on the diagonal. A sum that is negative or imaginary is not heard. */
static void test_quiet_sums(void)
{
    static const uint32_t counts[] = {1, 3, HUBQR_SNAPSHOTS_MAX};
    for (int n = 0; n < 3 * HUBQR_ANTENNAS; n++) {
        int k = n % HUBQR_ANTENNAS;
        uint32_t count = counts[n / HUBQR_ANTENNAS];
        int64_t edge = (HUBQR_HEARD_ABOVE + 1) * INT64_C(65536) * count;
        written_and_heard("a sum at the edge", with_sum(count, place(k, k, 0), edge), (uint8_t)(1 << k));
        written_and_heard("a sum under the edge", with_sum(count, place(k, k, 0), edge - 1), 0);
        written_and_heard("a negative sum", with_sum(count, place(k, k, 0), -edge), 0);
        written_and_heard("an imaginary sum", with_sum(count, place(k, k, 1), edge), 0);
    }
}

/* Blocks of exactly the needed sizes on the heap, where valgrind sees a step past their end. */
static void test_exact_blocks(void)
{
    uint8_t *record = malloc(HUBQR_MATRIX_RECORD_BYTES);
    struct hubqr_sums *sums = malloc(sizeof *sums);
    CHECK("memory for exact sizes", record && sums);
    *sums = hubqr_sums_none();
    CHECK("adding", hubqr_add_snapshot_at(sums, mixed(1)) == HUBQR_ACCEPTED);
    CHECK("257 bytes", hubqr_write_matrix_at(sums, record, HUBQR_MATRIX_RECORD_BYTES) == HUBQR_ACCEPTED);
    written("one snapshot", *sums);
    CHECK("same record as in longer lent memory", memcmp(record, buffer, HUBQR_MATRIX_RECORD_BYTES) == 0);
    free(record);
    free(sums);
}

void test_covariance(void)
{
    test_sums_none();
    test_conjugate();
    test_one_snapshot();
    test_many_snapshots();
    test_most_snapshots();
    test_sum_limits();
    test_counts();
    test_write_order();
    test_parts();
    test_record_goes_on();
    test_quiet_samples();
    test_quiet_on_average();
    test_quiet_sums();
    test_exact_blocks();
}
