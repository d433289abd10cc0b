/* Refused input: each number of each call, the order of the tests, null with length 0, and that nothing lent is changed. */
#include "check.h"

#include <string.h>

static uint8_t matrix[HUBQR_MATRIX_RECORD_BYTES + 1];
static uint8_t zeros[HUBQR_MATRIX_RECORD_BYTES] = {HUBQR_KIND_MATRIX};
/* What loose plugs leave, which is not zero and in which no antenna is heard; of the kind of a matrix, and of kind 03. */
static uint8_t hum[HUBQR_MATRIX_RECORD_BYTES + 1];
static uint8_t other_hum[HUBQR_MATRIX_RECORD_BYTES];
static uint8_t result[HUBQR_RESULT_RECORD_BYTES + 1] = {HUBQR_KIND_RESULT};
static uint8_t other_kind[HUBQR_RESULT_RECORD_BYTES] = {HUBQR_KIND_REFUSAL};
/* Result records that break the rule of R: the first word is -1, or the first word of the last row is 1. */
static uint8_t negative_diagonal[HUBQR_RESULT_RECORD_BYTES] = {HUBQR_KIND_RESULT, 0xff, 0xff, 0xff, 0xff};
static uint8_t under_diagonal[HUBQR_RESULT_RECORD_BYTES] = {HUBQR_KIND_RESULT};

/* What a call is handed, and the number it must answer. Fields that a call does not take stay 0. */
struct handed {
    const char *what;
    const uint8_t *record;
    size_t record_len;
    int32_t *area;
    size_t area_len;
    uint8_t *buffer;
    size_t buffer_len;
    struct hubqr_job job;
    uint8_t number;
};

static void refuse_load(const struct handed *h)
{
    struct hubqr_load_reply reply = hubqr_load(h->record, h->record_len, h->area, h->area_len);
    CHECK(h->what, reply.number == h->number && reply.heard == 0 && is_job(reply.job, 0, 0));
}

static void refuse_run(const struct handed *h)
{
    struct hubqr_run_reply reply = hubqr_run(h->job, 120, h->area, h->area_len);
    CHECK(h->what, reply.number == h->number && is_job(reply.job, h->job.turn, h->job.made));
    CHECK(h->what, reply.count == 0 && reply.clamps_r == 0 && reply.clamps_q == 0);
}

static void refuse_fetch(const struct handed *h)
{
    CHECK(h->what, hubqr_fetch(h->job, h->area, h->area_len, h->buffer, h->buffer_len) == h->number);
}

static void refuse_read(const struct handed *h)
{
    struct hubqr_read_reply reply = hubqr_read(h->record, h->record_len, h->area, h->area_len);
    CHECK(h->what, reply.number == h->number && is_job(reply.job, 0, 0));
}

static void refuse_whole(const struct handed *h)
{
    struct hubqr_whole_reply reply = hubqr_whole(h->record, h->record_len, h->area, h->area_len, h->buffer, h->buffer_len);
    CHECK(h->what, reply.number == h->number && reply.heard == 0 && reply.clamps_r == 0 && reply.clamps_q == 0);
}

/* Makes the refused calls of a table on the area and buffer as they stand. */
static void refuse_all(void (*call)(const struct handed *), const struct handed *table, size_t count)
{
    for (size_t k = 0; k < count; k++) {
        remember();
        call(&table[k]);
        CHECK(table[k].what, unchanged());
    }
}

#define REFUSE_ALL(call, table) refuse_all(call, table, sizeof(table) / sizeof *(table))

static void test_load(void)
{
    static const struct handed table[] = {
        {"Load of a null record", NULL, 0, area, 512, NULL, 0, {0, 0}, HUBQR_WRONG_KIND},
        {"Load of an empty record", matrix, 0, area, 512, NULL, 0, {0, 0}, HUBQR_WRONG_KIND},
        {"Load of a result record", result, 2049, area, 512, NULL, 0, {0, 0}, HUBQR_WRONG_KIND},
        {"Load of kind 03, 256 bytes", other_kind, 256, area, 512, NULL, 0, {0, 0}, HUBQR_WRONG_KIND},
        {"Load of 1 byte", matrix, 1, area, 512, NULL, 0, {0, 0}, HUBQR_WRONG_LENGTH},
        {"Load of 256 bytes", matrix, 256, area, 512, NULL, 0, {0, 0}, HUBQR_WRONG_LENGTH},
        {"Load of 258 bytes", matrix, 258, area, 512, NULL, 0, {0, 0}, HUBQR_WRONG_LENGTH},
        {"Load of 256 bytes, 511 words", matrix, 256, area, 511, NULL, 0, {0, 0}, HUBQR_WRONG_LENGTH},
        {"Load into 511 words", matrix, 257, area, 511, NULL, 0, {0, 0}, HUBQR_AREA_TOO_SHORT},
        {"Load into a null area", matrix, 257, NULL, 0, NULL, 0, {0, 0}, HUBQR_AREA_TOO_SHORT},
        {"Load of zeros into 511 words", zeros, 257, area, 511, NULL, 0, {0, 0}, HUBQR_AREA_TOO_SHORT},
        {"Load of zeros", zeros, 257, area, 512, NULL, 0, {0, 0}, HUBQR_NONE_HEARD},
        {"Load of a hum of kind 03", other_hum, 257, area, 512, NULL, 0, {0, 0}, HUBQR_WRONG_KIND},
        {"Load of 256 bytes of a hum", hum, 256, area, 512, NULL, 0, {0, 0}, HUBQR_WRONG_LENGTH},
        {"Load of 258 bytes of a hum", hum, 258, area, 512, NULL, 0, {0, 0}, HUBQR_WRONG_LENGTH},
        {"Load of a hum into 511 words", hum, 257, area, 511, NULL, 0, {0, 0}, HUBQR_AREA_TOO_SHORT},
        {"Load of a hum", hum, 257, area, 512, NULL, 0, {0, 0}, HUBQR_NONE_HEARD},
        {"Load of nothing into nothing", NULL, 0, NULL, 0, NULL, 0, {0, 0}, HUBQR_WRONG_KIND},
    };
    scribble();
    REFUSE_ALL(refuse_load, table);
}

static void test_run(void)
{
    static const struct handed table[] = {
        {"Run on 511 words", NULL, 0, area, 511, NULL, 0, {0, 0}, HUBQR_AREA_TOO_SHORT},
        {"Run on a null area", NULL, 0, NULL, 0, NULL, 0, {7, 5}, HUBQR_AREA_TOO_SHORT},
        {"Run of job (121, 0) on 511 words", NULL, 0, area, 511, NULL, 0, {121, 0}, HUBQR_AREA_TOO_SHORT},
        {"Run of job (5, 6) on 511 words", NULL, 0, area, 511, NULL, 0, {5, 6}, HUBQR_AREA_TOO_SHORT},
        {"Run of job (121, 0)", NULL, 0, area, 512, NULL, 0, {121, 0}, HUBQR_NO_SUCH_JOB},
        {"Run of job (121, 121)", NULL, 0, area, 512, NULL, 0, {121, 121}, HUBQR_NO_SUCH_JOB},
        {"Run of the largest turn number", NULL, 0, area, 512, NULL, 0, {UINT32_MAX, 0}, HUBQR_NO_SUCH_JOB},
        {"Run of the largest numbers", NULL, 0, area, 512, NULL, 0, {UINT32_MAX, UINT32_MAX}, HUBQR_NO_SUCH_JOB},
        {"Run of job (0, 1)", NULL, 0, area, 512, NULL, 0, {0, 1}, HUBQR_NO_SUCH_JOB},
        {"Run of job (5, 6)", NULL, 0, area, 512, NULL, 0, {5, 6}, HUBQR_NO_SUCH_JOB},
        {"Run of job (119, 120)", NULL, 0, area, 512, NULL, 0, {119, 120}, HUBQR_NO_SUCH_JOB},
        {"Run of job (119, the largest)", NULL, 0, area, 512, NULL, 0, {119, UINT32_MAX}, HUBQR_NO_SUCH_JOB},
        {"Run of job (120, 121)", NULL, 0, area, 512, NULL, 0, {120, 121}, HUBQR_NO_SUCH_JOB},
    };
    scribble();
    REFUSE_ALL(refuse_run, table);
}

static void test_fetch(void)
{
    static const struct handed table[] = {
        {"Fetch from 511 words", NULL, 0, area, 511, buffer, 2049, {120, 0}, HUBQR_AREA_TOO_SHORT},
        {"Fetch from a null area", NULL, 0, NULL, 0, buffer, 2049, {120, 0}, HUBQR_AREA_TOO_SHORT},
        {"Fetch of job (121, 0) from 511 words", NULL, 0, area, 511, buffer, 2049, {121, 0}, HUBQR_AREA_TOO_SHORT},
        {"Fetch of job (5, 6) from 511 words", NULL, 0, area, 511, buffer, 2049, {5, 6}, HUBQR_AREA_TOO_SHORT},
        {"Fetch of job (121, 0)", NULL, 0, area, 512, buffer, 2049, {121, 0}, HUBQR_NO_SUCH_JOB},
        {"Fetch of job (121, 0) into 2,048 bytes", NULL, 0, area, 512, buffer, 2048, {121, 0}, HUBQR_NO_SUCH_JOB},
        {"Fetch of the largest numbers", NULL, 0, area, 512, buffer, 2049, {UINT32_MAX, UINT32_MAX}, HUBQR_NO_SUCH_JOB},
        {"Fetch of job (0, 1)", NULL, 0, area, 512, buffer, 2049, {0, 1}, HUBQR_NO_SUCH_JOB},
        {"Fetch of job (5, 6)", NULL, 0, area, 512, buffer, 2049, {5, 6}, HUBQR_NO_SUCH_JOB},
        {"Fetch of job (119, the largest)", NULL, 0, area, 512, buffer, 2049, {119, UINT32_MAX}, HUBQR_NO_SUCH_JOB},
        {"Fetch of job (120, 121)", NULL, 0, area, 512, buffer, 2049, {120, 121}, HUBQR_NO_SUCH_JOB},
        {"Fetch of job (120, 121) into 2,048 bytes", NULL, 0, area, 512, buffer, 2048, {120, 121}, HUBQR_NO_SUCH_JOB},
        {"Fetch of job (119, 0)", NULL, 0, area, 512, buffer, 2049, {119, 0}, HUBQR_UNFINISHED},
        {"Fetch of job (119, 119)", NULL, 0, area, 512, buffer, 2049, {119, 119}, HUBQR_UNFINISHED},
        {"Fetch of job (0, 0) into a null buffer", NULL, 0, area, 512, NULL, 0, {0, 0}, HUBQR_UNFINISHED},
        {"Fetch into 2,048 bytes", NULL, 0, area, 512, buffer, 2048, {120, 0}, HUBQR_BUFFER_TOO_SHORT},
        {"Fetch into a null buffer", NULL, 0, area, 512, NULL, 0, {120, 120}, HUBQR_BUFFER_TOO_SHORT},
        {"Fetch of words that are no R", NULL, 0, area, 512, buffer, 2049, {120, 0}, HUBQR_NOT_TRIANGULAR},
        {"Fetch of words that are no R, all made", NULL, 0, area, 512, buffer, 2049, {120, 120}, HUBQR_NOT_TRIANGULAR},
    };
    scribble();
    REFUSE_ALL(refuse_fetch, table);
}

/* Test 8 looks at 120 words under the diagonal and at 15 on it, and at no other. */
static void test_fetch_rule(void)
{
    static const struct handed refused = {
        "Fetch of one wrong word", NULL, 0, area, 512, buffer, 2049, {120, 0}, HUBQR_NOT_TRIANGULAR,
    };
    for (int k = 0; k < HUBQR_AREA_WORDS; k++) {
        int row = k / HUBQR_AREA_COLUMNS, column = k % HUBQR_AREA_COLUMNS;
        memset(area, 0, sizeof area);
        area[k] = -1;
        if (column < row || (column == row && row < 15)) {
            refuse_all(refuse_fetch, &refused, 1);
        } else {
            CHECK("Fetch of one negative word", hubqr_fetch(refused.job, area, AREA_LENT, buffer, BUFFER_LENT) == HUBQR_ACCEPTED);
        }
    }
}

static void test_read(void)
{
    static const struct handed table[] = {
        {"Read of a null record", NULL, 0, area, 512, NULL, 0, {0, 0}, HUBQR_WRONG_KIND},
        {"Read of an empty record", result, 0, area, 512, NULL, 0, {0, 0}, HUBQR_WRONG_KIND},
        {"Read of a matrix record", matrix, 257, area, 512, NULL, 0, {0, 0}, HUBQR_WRONG_KIND},
        {"Read of kind 03", other_kind, 2049, area, 512, NULL, 0, {0, 0}, HUBQR_WRONG_KIND},
        {"Read of 2,048 bytes", result, 2048, area, 512, NULL, 0, {0, 0}, HUBQR_WRONG_LENGTH},
        {"Read of 2,050 bytes", result, 2050, area, 512, NULL, 0, {0, 0}, HUBQR_WRONG_LENGTH},
        {"Read into 511 words", result, 2049, area, 511, NULL, 0, {0, 0}, HUBQR_AREA_TOO_SHORT},
        {"Read into a null area", result, 2049, NULL, 0, NULL, 0, {0, 0}, HUBQR_AREA_TOO_SHORT},
        {"Read of a wrong R into 511 words", under_diagonal, 2049, area, 511, NULL, 0, {0, 0}, HUBQR_AREA_TOO_SHORT},
        {"Read of a word under the diagonal", under_diagonal, 2049, area, 512, NULL, 0, {0, 0}, HUBQR_NOT_TRIANGULAR},
        {"Read of a negative diagonal word", negative_diagonal, 2049, area, 512, NULL, 0, {0, 0}, HUBQR_NOT_TRIANGULAR},
    };
    scribble();
    REFUSE_ALL(refuse_read, table);
}

static void test_whole(void)
{
    static const struct handed table[] = {
        {"Whole of a null record", NULL, 0, area, 512, buffer, 2049, {0, 0}, HUBQR_WRONG_KIND},
        {"Whole of a result record", result, 2049, area, 512, buffer, 2049, {0, 0}, HUBQR_WRONG_KIND},
        {"Whole of 256 bytes", matrix, 256, area, 512, buffer, 2049, {0, 0}, HUBQR_WRONG_LENGTH},
        {"Whole of 258 bytes", matrix, 258, area, 512, buffer, 2049, {0, 0}, HUBQR_WRONG_LENGTH},
        {"Whole in 511 words", matrix, 257, area, 511, buffer, 2049, {0, 0}, HUBQR_AREA_TOO_SHORT},
        {"Whole in a null area", matrix, 257, NULL, 0, buffer, 2049, {0, 0}, HUBQR_AREA_TOO_SHORT},
        {"Whole in 511 words, 2,048 bytes", matrix, 257, area, 511, buffer, 2048, {0, 0}, HUBQR_AREA_TOO_SHORT},
        {"Whole into 2,048 bytes", matrix, 257, area, 512, buffer, 2048, {0, 0}, HUBQR_BUFFER_TOO_SHORT},
        {"Whole into a null buffer", matrix, 257, area, 512, NULL, 0, {0, 0}, HUBQR_BUFFER_TOO_SHORT},
        {"Whole of zeros into 2,048 bytes", zeros, 257, area, 512, buffer, 2048, {0, 0}, HUBQR_BUFFER_TOO_SHORT},
        {"Whole of zeros", zeros, 257, area, 512, buffer, 2049, {0, 0}, HUBQR_NONE_HEARD},
        {"Whole of a hum of kind 03", other_hum, 257, area, 512, buffer, 2049, {0, 0}, HUBQR_WRONG_KIND},
        {"Whole of 256 bytes of a hum", hum, 256, area, 512, buffer, 2049, {0, 0}, HUBQR_WRONG_LENGTH},
        {"Whole of 258 bytes of a hum", hum, 258, area, 512, buffer, 2049, {0, 0}, HUBQR_WRONG_LENGTH},
        {"Whole of a hum in 511 words", hum, 257, area, 511, buffer, 2049, {0, 0}, HUBQR_AREA_TOO_SHORT},
        {"Whole of a hum in 511 words, 2,048 bytes", hum, 257, area, 511, buffer, 2048, {0, 0}, HUBQR_AREA_TOO_SHORT},
        {"Whole of a hum into 2,048 bytes", hum, 257, area, 512, buffer, 2048, {0, 0}, HUBQR_BUFFER_TOO_SHORT},
        {"Whole of a hum into a null buffer", hum, 257, area, 512, NULL, 0, {0, 0}, HUBQR_BUFFER_TOO_SHORT},
        {"Whole of a hum", hum, 257, area, 512, buffer, 2049, {0, 0}, HUBQR_NONE_HEARD},
        {"Whole of nothing", NULL, 0, NULL, 0, NULL, 0, {0, 0}, HUBQR_WRONG_KIND},
    };
    scribble();
    REFUSE_ALL(refuse_whole, table);
}

void test_refused(void)
{
    make_matrix(matrix);
    make_equal(hum, 2);
    make_equal(other_hum, 2);
    other_hum[0] = HUBQR_KIND_REFUSAL;
    under_diagonal[1 + 4 * (16 * 15) + 3] = 1;
    test_load();
    test_run();
    test_fetch();
    test_fetch_rule();
    test_read();
    test_whole();
}
