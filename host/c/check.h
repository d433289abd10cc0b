/* What the tests of the C face share: counted checks, and an area and a buffer with guards behind them. */
#ifndef CHECK_H
#define CHECK_H

#include "hubqr.h"

/* Counts a check that holds; a check that fails ends the program with a message that names `what` and the condition. */
#define CHECK(what, condition) check((condition), (what), #condition, __FILE__, __LINE__)
void check(int holds, const char *what, const char *condition, const char *file, int line);
unsigned checks_passed(void);

/* What a call is lent. Both are longer than needed; the words and bytes behind the needed ones are guards. */
enum { GUARDS = 5, AREA_LENT = HUBQR_AREA_WORDS + GUARDS, BUFFER_LENT = HUBQR_RESULT_RECORD_BYTES + GUARDS };
extern int32_t area[AREA_LENT];
extern uint8_t buffer[BUFFER_LENT];

/* Fills area and buffer with a pattern that no call writes. */
void scribble(void);
/*
 * Remembers area and buffer; `unchanged` compares with that, `unchanged_from` leaves out the buffer's bytes before `first`, and
 * `guards_unchanged` looks at the guards only.
 */
void remember(void);
int unchanged(void);
int unchanged_from(size_t first);
int guards_unchanged(void);

/*
 * A matrix record whose elements differ, with both ends of the 16-bit range among them. Antennas 1 to 6 are heard and two are
 * not, which are worked like the others: on the diagonal, antenna 0 has the real part 1 and antenna 7 a negative one.
 */
enum { MATRIX_HEARD = 0x7e };
void make_matrix(uint8_t record[HUBQR_MATRIX_RECORD_BYTES]);
/* A matrix record with this number as each real and each imaginary part. */
void make_equal(uint8_t record[HUBQR_MATRIX_RECORD_BYTES], int16_t part);
/* Sets element (row, column) of a matrix record. */
void set_element(uint8_t *record, int row, int column, int16_t real, int16_t imaginary);

/* Whether a job has this turn number and this count of turns made. */
int is_job(struct hubqr_job job, uint32_t turn, uint32_t made);
/* Whether two desks have the same in all their fields, between which no byte is padding. */
int same_desk(const struct hubqr_desk *a, const struct hubqr_desk *b);

/*
 * Load and Whole answer this heard byte for a matrix record. With 0, both refuse it with number 4 and change nothing; otherwise
 * both accept it. Load answers the job (0, 0) in either case.
 */
void check_heard(const char *what, const uint8_t record[HUBQR_MATRIX_RECORD_BYTES], uint8_t heard);

void test_face(void);
void test_accepted(void);
void test_job(void);
void test_heard(void);
void test_refused(void);
void test_covariance(void);
void test_weights(void);
void test_limits(void);
void test_verify(void);
void test_desk(void);
void test_hand_in(void);
void test_desk_refused(void);
void test_roles(void);
void test_log(void);
void test_log_history(void);
void test_log_refused(void);

#endif
