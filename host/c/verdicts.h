/* What the tests of verdicts share: a matrix record and a result record that are made word by word, and the verdict on them. */
#ifndef VERDICTS_H
#define VERDICTS_H

#include "check.h"
#include "words.h"

/* One half in a part of the matrix record, and what R has for it. */
enum { HALF = 16384, R_HALF = 8192 * HALF };

/* What a call is handed, with a byte behind each record. */
extern uint8_t matrix[HUBQR_MATRIX_RECORD_BYTES + 1], result[HUBQR_RESULT_RECORD_BYTES + 1];

/* One half on the diagonal for the antennas from `first` to `last`, 0 elsewhere, and a result without error, where Q is one. */
void begin_with(int first, int last);
/* Sets entry (i, j) of the matrix made real, and with it the other entry that the same part of the record stands for. */
void set_entry(int i, int j, int16_t entry);
/* Sets a word of R and of Q. */
void set_r(int i, int j, int32_t word);
void set_q(int i, int j, int32_t word);

/* The verdict on two records is this one, and neither `matrix` nor `result` is changed. */
void verdict_is(const char *what, const uint8_t *first, size_t first_len, const uint8_t *second, size_t second_len,
                struct hubqr_verdict due);
/* The verdict on `matrix` and `result`. */
void is_yes(const char *what);
void is_no(const char *what);
void is_refused(const char *what, uint8_t number);

#endif
