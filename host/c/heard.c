/* Who is heard: Load and Whole look at the real parts of the diagonal and at nothing else, and refuse a matrix if none is. */
#include "check.h"

static uint8_t record[HUBQR_MATRIX_RECORD_BYTES];

/* The largest real part of an antenna that is not heard, and the smallest of one that is. */
enum { QUIET = HUBQR_HEARD_ABOVE, LOUD = HUBQR_HEARD_ABOVE + 1 };

/* Each set of antennas, at the edge, with the same large or small number in all other parts. */
static void heard_sets(const char *what, int16_t rest)
{
    make_equal(record, rest);
    for (int heard = 0; heard < 256; heard++) {
        for (int k = 0; k < HUBQR_ANTENNAS; k++) {
            set_element(record, k, k, heard >> k & 1 ? LOUD : QUIET, rest);
        }
        check_heard(what, record, (uint8_t)heard);
    }
}

static void test_sets(void)
{
    heard_sets("antennas heard, other parts 32767", 32767);
    heard_sets("antennas heard, other parts 0", 0);
    heard_sets("antennas heard, other parts -32768", -32768);
}

/* One antenna alone. Among the numbers are some whose high or low byte is 0 or above 16 by itself, and negative ones. */
static void test_real_parts(void)
{
    static const int16_t parts[] = {-32768, -32767, -256, -239, -18, -17, -16, -1,  0,   1,   2,    15,
                                    16,     17,     18,   32,   127, 128, 255, 256, 257, 272, 4096, 32767};
    for (int k = 0; k < HUBQR_ANTENNAS; k++) {
        for (size_t n = 0; n < sizeof parts / sizeof *parts; n++) {
            make_equal(record, 0);
            set_element(record, k, k, parts[n], 0);
            check_heard("one real part on the diagonal", record, (uint8_t)((parts[n] > QUIET) << k));
        }
    }
}

/* One element is set and all others are 0: what is not the real part of a diagonal element is not heard, however large. */
static void test_other_parts(void)
{
    for (int n = 0; n < HUBQR_ANTENNAS * HUBQR_ANTENNAS; n++) {
        int row = n / HUBQR_ANTENNAS, column = n % HUBQR_ANTENNAS;
        make_equal(record, 0);
        set_element(record, row, column, 1, 0);
        check_heard("a single 1", record, 0);
        set_element(record, row, column, row == column ? QUIET : 32767, 32767);
        check_heard("large parts that do not count", record, 0);
    }
}

static void test_equal_parts(void)
{
    static const int16_t refused[] = {-32768, -17, -1, 0, 1, 2, QUIET}, accepted[] = {LOUD, 32767};
    for (size_t n = 0; n < sizeof refused / sizeof *refused; n++) {
        make_equal(record, refused[n]);
        check_heard("equal parts, none heard", record, 0);
    }
    for (size_t n = 0; n < sizeof accepted / sizeof *accepted; n++) {
        make_equal(record, accepted[n]);
        check_heard("equal parts, all heard", record, 0xff);
    }
}

void test_heard(void)
{
    test_sets();
    test_real_parts();
    test_other_parts();
    test_equal_parts();
}
