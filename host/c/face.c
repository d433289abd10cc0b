/* What the headers say by themselves: sizes and places that the archive was compiled with, the version, the refusals in words. */
#include "check.h"
#include "layout.h"

#include <string.h>

_Static_assert(HUBQR_VERSION_MINOR < 100 && HUBQR_VERSION_PATCH < 100, "two digits each in HUBQR_VERSION");
_Static_assert(HUBQR_AREA_ROWS * HUBQR_AREA_COLUMNS == HUBQR_AREA_WORDS, "the area's shape");
_Static_assert(HUBQR_HEARD_ABOVE == 16, "the real part that an antenna has to pass");
_Static_assert(HUBQR_MATRIX_RECORD_BYTES == 1 + 64 * 4, "64 elements of four bytes behind the kind byte");
_Static_assert(HUBQR_SUM_WORDS == 2 * HUBQR_ANTENNAS * HUBQR_ANTENNAS, "a real and an imaginary sum for each element");
_Static_assert(HUBQR_MATRIX_RECORD_BYTES == 1 + 2 * HUBQR_SUM_WORDS, "a part of two bytes for each sum behind the kind byte");
_Static_assert(HUBQR_ROUND_TURNS == HUBQR_TURNS, "a round has at most the turns of one matrix");
_Static_assert(HUBQR_SECTORS * HUBQR_FIRST_SHARE == HUBQR_ROUND_TURNS, "the first shares are the whole of a round");
_Static_assert(HUBQR_SECTORS * HUBQR_MATRIX_RECORD_BYTES == 2056, "a matrix record that waits for each sector");
_Static_assert(HUBQR_RESULT_RECORD_BYTES == 1 + HUBQR_AREA_WORDS * 4, "the area's words behind the kind byte");
_Static_assert(HUBQR_LOG_RESULT == 5 && HUBQR_LOG_REFUSAL == 6 && HUBQR_LOG_HEARD == 7, "the kinds of a log's entries");
_Static_assert(HUBQR_LOG_HEAD_BYTES == 1 + 4, "a kind and a day before the body");
_Static_assert(HUBQR_LOG_RESULT_BYTES == HUBQR_LOG_HEAD_BYTES + HUBQR_RESULT_RECORD_BYTES, "a result record behind them");
_Static_assert(HUBQR_LOG_REFUSAL_BYTES == HUBQR_LOG_HEAD_BYTES + 1, "a refusal number behind them");
_Static_assert(HUBQR_LOG_HEARD_BYTES == HUBQR_LOG_HEAD_BYTES + 1, "a heard byte behind them");
_Static_assert(HUBQR_LOG_RESULT_DAYS == 7, "how long results stay");
_Static_assert(HUBQR_LOG_REFUSAL_DAYS == 30, "how long refusals stay");
_Static_assert(HUBQR_LOG_HEARD_DAYS == 90, "how long heard bytes stay");

/* The numbers of the refusals, in the header's order. */
#define NUMBER(name, number, words) number,
static const uint8_t numbers[] = {HUBQR_REFUSALS(NUMBER)};
enum { REFUSALS = sizeof numbers };

/* Each number from 1 on is a refusal with words of its own; every other one is told from them. */
static void test_words(void)
{
    const char *none = hubqr_refusal_words(255);
    CHECK("words of a number that is none", strcmp(none, "no refusal number") == 0);
    CHECK("words of 0", strcmp(hubqr_refusal_words(HUBQR_ACCEPTED), "accepted") == 0);
    CHECK("words of 1", strcmp(hubqr_refusal_words(HUBQR_WRONG_KIND),
                               "the record is empty or its kind byte is not the one expected, "
                               "or a log has no such kind of entry") == 0);
    CHECK("words of 2", strcmp(hubqr_refusal_words(HUBQR_WRONG_LENGTH),
                               "the record's length is not 257 bytes for a matrix or 2,049 bytes for a result, "
                               "or a log entry's body has not the length of its kind") == 0);
    CHECK("words of 4", strcmp(hubqr_refusal_words(HUBQR_NONE_HEARD),
                               "no antenna was heard: the real part of every diagonal element is 16 or less") == 0);
    CHECK("words of 5", strcmp(hubqr_refusal_words(HUBQR_NO_SUCH_JOB),
                               "the turn number is above 120, or less than the turns made") == 0);
    CHECK("words of 11", strcmp(hubqr_refusal_words(HUBQR_ZERO_DIAGONAL), "one of R's 16 diagonal words is 0") == 0);
    CHECK("words of 12", strcmp(hubqr_refusal_words(HUBQR_NO_SUCH_SECTOR), "the sector is above 7") == 0);
    CHECK("words of 13", strcmp(hubqr_refusal_words(HUBQR_COUNT_USED_UP),
                                "turns are requested for an unfinished job, and the sector has none left in the round") == 0);
    CHECK("words of 14", strcmp(hubqr_refusal_words(HUBQR_SHARES_EXCEED_ROUND), "the shares are above 120 in total") == 0);
    CHECK("words of 15", strcmp(hubqr_refusal_words(HUBQR_NOT_ALLOWED), "the call is not allowed to this role") == 0);
    CHECK("words of 16", strcmp(hubqr_refusal_words(HUBQR_BROKEN_LOG),
                                "the used bytes of the log pass the buffer or are no whole run of entries") == 0);
    CHECK("words of 17", strcmp(hubqr_refusal_words(HUBQR_NO_ROOM),
                                "the entry does not fit behind the used bytes of the log") == 0);
    for (int k = 0; k < REFUSALS; k++) {
        CHECK("refusals are numbered from 1 on", numbers[k] == k + 1);
        for (int other = 0; other < k; other++) {
            CHECK("words differ", strcmp(hubqr_refusal_words(numbers[k]), hubqr_refusal_words(numbers[other])) != 0);
        }
        CHECK("a refusal has words", strcmp(hubqr_refusal_words(numbers[k]), none) != 0);
    }
    for (int number = REFUSALS + 1; number < 256; number++) {
        CHECK("any other number", strcmp(hubqr_refusal_words((uint8_t)number), none) == 0);
    }
}

void test_face(void)
{
    CHECK("header and archive are of one version", hubqr_version() == HUBQR_VERSION);
    test_words();
}
