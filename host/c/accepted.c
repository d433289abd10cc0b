/* Accepted input: replies, every word and byte that a call writes, and the guards behind them. */
#include "check.h"
#include "words.h"

#include <stdlib.h>
#include <string.h>

static uint8_t matrix[HUBQR_MATRIX_RECORD_BYTES];

/* Part of element (row, column) of `matrix`: the real one for offset 0, the imaginary one for offset 2. */
static int32_t part(int row, int column, int offset)
{
    const uint8_t *at = matrix + 1 + 4 * (8 * row + column) + offset;
    int32_t value = at[0] * 256 + at[1];
    return value < 32768 ? value : value - 65536;
}

/* Entry (i, j) of the matrix made real, 16 by 16. */
static int32_t real_entry(int i, int j)
{
    if (i / 8 == j / 8) {
        return part(i % 8, j % 8, 0);
    }
    return i < 8 ? -part(i, j - 8, 2) : part(i - 8, j, 2);
}

/* Loads the matrix. Returns the job. */
static struct hubqr_job load_matrix(void)
{
    struct hubqr_load_reply loaded = hubqr_load(matrix, sizeof matrix, area, AREA_LENT);
    CHECK("Load", loaded.number == HUBQR_ACCEPTED);
    CHECK("Load answers the job (0, 0)", is_job(loaded.job, 0, 0));
    CHECK("Load answers the heard byte", loaded.heard == MATRIX_HEARD);
    return loaded.job;
}

static void test_load(void)
{
    int words_right = 1;
    scribble();
    remember();
    load_matrix();
    for (int i = 0; i < HUBQR_AREA_ROWS; i++) {
        for (int j = 0; j < 16; j++) {
            int32_t one = i == j ? HUBQR_Q_ONE : 0;
            words_right &= area[HUBQR_AREA_COLUMNS * i + j] == real_entry(i, j) * 8192;
            words_right &= area[HUBQR_AREA_COLUMNS * i + 16 + j] == one;
        }
    }
    CHECK("Load fills all 512 words", words_right);
    CHECK("Load leaves what is behind 512 words", guards_unchanged());
}

/* Runs to the end with the same allowance in each call. Returns the job. */
static struct hubqr_job run_all(struct hubqr_job job, uint16_t allowance)
{
    while (job.turn < HUBQR_TURNS) {
        uint32_t left = HUBQR_TURNS - job.turn;
        uint32_t due = allowance < left ? allowance : left;
        struct hubqr_run_reply ran = hubqr_run(job, allowance, area, AREA_LENT);
        CHECK("Run", ran.number == HUBQR_ACCEPTED);
        CHECK("Run goes on by the smaller of allowance and turns left", ran.count == due && ran.job.turn == job.turn + due);
        CHECK("Run makes no more turns than that", ran.job.made >= job.made && ran.job.made <= job.made + due);
        CHECK("Run of a loaded area counts no clamp", ran.clamps_r == 0 && ran.clamps_q == 0);
        job = ran.job;
    }
    return job;
}

/* A Run that goes on by no turn: nothing changes and the job stays. */
static void run_none(const char *what, uint32_t turn, uint32_t made, uint16_t allowance)
{
    struct hubqr_job job = {turn, made};
    remember();
    struct hubqr_run_reply ran = hubqr_run(job, allowance, area, AREA_LENT);
    CHECK(what, ran.number == HUBQR_ACCEPTED && is_job(ran.job, turn, made));
    CHECK(what, ran.count == 0 && ran.clamps_r == 0 && ran.clamps_q == 0);
    CHECK(what, unchanged());
}

static void test_run(void)
{
    static const uint16_t allowances[] = {1, 7, 119, 120, 121, 65535};
    static int32_t first[HUBQR_AREA_WORDS];
    uint32_t made = 0;
    for (size_t k = 0; k < sizeof allowances / sizeof *allowances; k++) {
        scribble();
        remember();
        struct hubqr_job job = run_all(load_matrix(), allowances[k]);
        CHECK("Run leaves what is behind 512 words", guards_unchanged());
        if (k == 0) {
            memcpy(first, area, sizeof first);
            made = job.made;
        }
        CHECK("instalments make no difference", memcmp(area, first, sizeof first) == 0 && is_job(job, HUBQR_TURNS, made));
    }
    run_none("Run at 120", HUBQR_TURNS, made, 65535);
    run_none("Run at 120 with none made", HUBQR_TURNS, 0, 65535);
    run_none("Run at 120 with all made", HUBQR_TURNS, HUBQR_TURNS, 65535);
    run_none("Run with allowance 0", 60, 0, 0);
    run_none("Run with allowance 0 and all made", 60, 60, 0);
}

/* Before the last turn, with all others made. */
static const struct hubqr_job before_last = {HUBQR_TURNS - 1, HUBQR_TURNS - 1};

/* The last turn, which is column 14, rows 14 and 15, of the given leading pair and of 0 elsewhere. */
static void last_turn(int32_t upper, int32_t lower, int32_t expected)
{
    int32_t *up = area + HUBQR_AREA_COLUMNS * 14 + 14, *low = area + HUBQR_AREA_COLUMNS * 15 + 14;
    memset(area, 0, sizeof area);
    *up = upper;
    *low = lower;
    struct hubqr_run_reply ran = hubqr_run(before_last, 1, area, AREA_LENT);
    CHECK("last turn", ran.number == HUBQR_ACCEPTED && ran.job.turn == HUBQR_TURNS);
    CHECK("last turn", ran.count == 1 && ran.clamps_r == 0 && ran.clamps_q == 0);
    CHECK("leading pair of the last turn", *up == expected && *low == 0);
}

/* The first pair is clear and stays. */
static void test_turn_values(void)
{
    last_turn(1, 0, 1);
    last_turn(0, 1, 1);
    last_turn(-1, 0, 17);
}

/*
 * Two rows for the last turn: words as large as they can be, which no Load makes, in the columns from `first` to before `end`,
 * small ones in the others. The lower row has the same words, times `sign` behind the leading column.
 */
static void fill_rows(int first, int end, int32_t sign)
{
    int32_t *upper = area + HUBQR_AREA_COLUMNS * 14, *lower = upper + HUBQR_AREA_COLUMNS;
    for (int column = 0; column < HUBQR_AREA_COLUMNS; column++) {
        upper[column] = column >= first && column < end ? INT32_MAX : 1000;
        lower[column] = column > 14 ? sign * upper[column] : upper[column];
    }
}

/* Equal words become a longer one in the upper row, opposite ones a longer one in the lower row: the large ones are clamped. */
static void clamp_columns(const char *what, int first, int end, uint32_t clamps_r, uint32_t clamps_q)
{
    for (int32_t sign = -1; sign <= 1; sign += 2) {
        const int32_t *longer = area + HUBQR_AREA_COLUMNS * (sign < 0 ? 15 : 14);
        int32_t clamped = sign < 0 ? INT32_MIN : INT32_MAX;
        int stored = 1;
        fill_rows(first, end, sign);
        struct hubqr_run_reply ran = hubqr_run(before_last, 1, area, AREA_LENT);
        CHECK(what, ran.number == HUBQR_ACCEPTED && ran.count == 1 && is_job(ran.job, HUBQR_TURNS, HUBQR_TURNS));
        CHECK(what, ran.clamps_r == clamps_r && ran.clamps_q == clamps_q);
        for (int column = 15; column < HUBQR_AREA_COLUMNS; column++) {
            stored &= (longer[column] == clamped) == (column >= first && column < end);
        }
        CHECK("Run stores the clamped words", stored);
    }
}

/* Columns 14 and 15 count in R, columns 16 to 31 in Q; those before the leading column 14 are not worked on. */
static void test_clamps(void)
{
    clamp_columns("Run of large words", 0, 32, 2, 16);
    clamp_columns("Run of a large left half", 0, 16, 2, 0);
    clamp_columns("Run of a large right half", 16, 32, 0, 16);
    clamp_columns("Run of a large leading column", 14, 15, 1, 0);
    clamp_columns("Run of a large last column of R", 15, 16, 1, 0);
    clamp_columns("Run of a large first column of Q", 16, 17, 0, 1);
    clamp_columns("Run of large columns before the leading one", 0, 14, 0, 0);
}

static void test_fetch(void)
{
    int words_right = 1;
    scribble();
    struct hubqr_job job = run_all(load_matrix(), 120);
    remember();
    CHECK("Fetch", hubqr_fetch(job, area, AREA_LENT, buffer, BUFFER_LENT) == HUBQR_ACCEPTED);
    CHECK("Fetch leaves what is behind 2,049 bytes", guards_unchanged());
    CHECK("Fetch writes the kind byte", buffer[0] == HUBQR_KIND_RESULT);
    for (int i = 0; i < HUBQR_AREA_ROWS; i++) {
        for (int j = 0; j < 16; j++) {
            words_right &= recorded(buffer, 16 * i + j) == area[HUBQR_AREA_COLUMNS * i + j];
            words_right &= recorded(buffer, 256 + 16 * i + j) == area[HUBQR_AREA_COLUMNS * i + 16 + j];
        }
    }
    CHECK("Fetch writes R, then Q transposed", words_right);
}

/* A fetched record read into another area, and fetched from there, is the same record. */
static void test_read(void)
{
    uint8_t record[HUBQR_RESULT_RECORD_BYTES];
    int32_t fetched[HUBQR_AREA_WORDS];
    memcpy(record, buffer, sizeof record);
    memcpy(fetched, area, sizeof fetched);
    scribble();
    remember();
    struct hubqr_read_reply restored = hubqr_read(record, sizeof record, area, AREA_LENT);
    CHECK("Read", restored.number == HUBQR_ACCEPTED);
    CHECK("Read answers the job (120, 0)", is_job(restored.job, 120, 0));
    CHECK("Read fills all 512 words", memcmp(area, fetched, sizeof fetched) == 0);
    CHECK("Fetch of what was read", hubqr_fetch(restored.job, area, AREA_LENT, buffer, BUFFER_LENT) == HUBQR_ACCEPTED);
    CHECK("Fetch writes the record that was read", memcmp(buffer, record, sizeof record) == 0);
    CHECK("Read and Fetch leave what is behind", guards_unchanged());
}

static void test_whole(void)
{
    uint8_t record[HUBQR_RESULT_RECORD_BYTES];
    int32_t worked[HUBQR_AREA_WORDS];
    memcpy(record, buffer, sizeof record);
    memcpy(worked, area, sizeof worked);
    scribble();
    remember();
    struct hubqr_whole_reply factored = hubqr_whole(matrix, sizeof matrix, area, AREA_LENT, buffer, BUFFER_LENT);
    CHECK("Whole", factored.number == HUBQR_ACCEPTED);
    CHECK("Whole answers the heard byte", factored.heard == MATRIX_HEARD);
    CHECK("Whole counts no clamp", factored.clamps_r == 0 && factored.clamps_q == 0);
    CHECK("Whole leaves R and Q in the area", memcmp(area, worked, sizeof worked) == 0);
    CHECK("Whole writes the record of Load, Run and Fetch", memcmp(buffer, record, sizeof record) == 0);
    CHECK("Whole leaves what is behind", guards_unchanged());
}

/* The sum of products of two columns of the area. None is longer than 2^30 and a little, so that the sum stays within 64 bits. */
static int64_t columns_product(int a, int b)
{
    int64_t sum = 0;
    for (int k = 0; k < 16; k++) sum += (int64_t)area[HUBQR_AREA_COLUMNS * k + a] * area[HUBQR_AREA_COLUMNS * k + b];
    return sum;
}

/* The same sum over the input made real. */
static int64_t input_product(int i, int j)
{
    int64_t sum = 0;
    for (int k = 0; k < 16; k++) sum += (int64_t)real_entry(k, i) * real_entry(k, j);
    return sum;
}

static int is_within(int64_t error)
{
    return error <= INT64_C(1) << 44 && error >= -(INT64_C(1) << 44);
}

/* The header's scale. Q is transposed in columns 16 to 31, so that an entry of Q times R is a sum over two columns as well. */
static void test_scale(void)
{
    int product = 1, columns = 1;
    for (int i = 0; i < 16; i++) {
        for (int j = 0; j < 16; j++) {
            product &= is_within(columns_product(16 + i, j) - (int64_t)real_entry(i, j) * (INT64_C(1) << 43));
            columns &= is_within(columns_product(i, j) - input_product(i, j) * (INT64_C(1) << 26));
        }
    }
    CHECK("Q times R is 2^43 times the input, within 2^44", product);
    CHECK("products of R's columns are 2^26 times the input's, within 2^44", columns);
}

/* Blocks of exactly the needed sizes on the heap, where valgrind sees a step past their end. */
static void test_exact_sizes(void)
{
    uint8_t *record = malloc(HUBQR_MATRIX_RECORD_BYTES), *result = malloc(HUBQR_RESULT_RECORD_BYTES);
    int32_t *words = malloc(HUBQR_AREA_WORDS * sizeof *words);
    CHECK("memory for exact sizes", record && result && words);
    make_matrix(record);
    struct hubqr_load_reply loaded = hubqr_load(record, HUBQR_MATRIX_RECORD_BYTES, words, HUBQR_AREA_WORDS);
    CHECK("Load", loaded.number == HUBQR_ACCEPTED);
    struct hubqr_run_reply ran = hubqr_run(loaded.job, 120, words, HUBQR_AREA_WORDS);
    CHECK("Run", ran.number == HUBQR_ACCEPTED);
    CHECK("Fetch", hubqr_fetch(ran.job, words, HUBQR_AREA_WORDS, result, HUBQR_RESULT_RECORD_BYTES) == HUBQR_ACCEPTED);
    CHECK("same record as in longer lent memory", memcmp(result, buffer, HUBQR_RESULT_RECORD_BYTES) == 0);
    CHECK("Read", hubqr_read(result, HUBQR_RESULT_RECORD_BYTES, words, HUBQR_AREA_WORDS).number == HUBQR_ACCEPTED);
    CHECK("Whole", hubqr_whole(record, HUBQR_MATRIX_RECORD_BYTES, words, HUBQR_AREA_WORDS, result, HUBQR_RESULT_RECORD_BYTES)
                       .number == HUBQR_ACCEPTED);
    CHECK("same record again", memcmp(result, buffer, HUBQR_RESULT_RECORD_BYTES) == 0);
    free(record);
    free(result);
    free(words);
}

void test_accepted(void)
{
    make_matrix(matrix);
    test_load();
    test_run();
    test_turn_values();
    test_clamps();
    test_fetch();
    test_read();
    test_whole();
    test_scale();
    test_exact_sizes();
}
