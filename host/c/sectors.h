/*
 * What the tests of accepted calls at the desk share. Each sector is worked beside an area of its own on which the engine's calls
 * go on by the turns granted, so that it is seen to be as if it had run alone. Every call is made by value and by pointer, and
 * each checks the whole desk that it leaves, the sector's area and all that is answered. The calls are the operator's, where
 * nothing else is said.
 */
#ifndef SECTORS_H
#define SECTORS_H

#include "check.h"

/* The desk, the areas that its calls are lent, and those on which the engine works alone. */
extern struct hubqr_desk desk;
extern int32_t areas[HUBQR_SECTORS][AREA_LENT], alone[HUBQR_SECTORS][AREA_LENT];

/*
 * Matrices by their numbers, as many as there are sectors. In matrix n antennas 0 to n are heard. The columns of the others are
 * empty, so that turns of theirs are clear.
 */
extern uint8_t records[HUBQR_SECTORS][HUBQR_MATRIX_RECORD_BYTES];
void make_records(void);
uint8_t heard_in(uint32_t matrix);

/* A new desk, and areas with a pattern in all their words. */
void start(void);
/*
 * Places a desk where a host could not have brought it: this job and this much left for a sector. All shares and what the others
 * have left are the contrary, so that nothing but the sector's own count can grant it turns or deny them.
 */
void place(uint32_t sector, uint32_t turn, uint32_t made, uint16_t left);

/* What the antennas of a sector heard, as each of the three roles is answered. */
void heard_is(const char *what, uint32_t sector, uint8_t heard);
/* Begins a round: each sector has its share left, and nothing else changes. */
void begin(const char *what);
/* Sets shares: nothing else changes, and no sector has more or less left. */
void set_shares(const char *what, struct hubqr_shares shares);
/* A round in which a sector has this share, the next one the rest of the 120 turns, and nobody else anything. */
void begin_shared(const char *what, uint32_t sector, uint16_t share);
/* Hands in a matrix that is loaded: nothing of the desk changes but the sector's job and heard byte. */
void load(const char *what, uint32_t sector, uint32_t matrix);
/* Hands in a matrix that waits: nothing changes but what waits for the sector, and its job and heard byte are answered. */
void let_wait(const char *what, uint32_t sector, uint32_t matrix);
/* A sector's Run is granted this much: what the engine alone makes of it, and the sector's own count pays it. */
void run(const char *what, uint32_t sector, uint16_t request, uint16_t granted);
/* The record that Whole makes of a matrix. */
void whole_of(const char *what, uint32_t matrix, uint8_t due[HUBQR_RESULT_RECORD_BYTES]);
/* A fitter's Fetch of a sector writes this record and changes nothing else, whether or not a matrix waits. */
void fetch_as_fitter(const char *what, uint32_t sector, const uint8_t due[HUBQR_RESULT_RECORD_BYTES]);
/*
 * A sector's Fetch, for which none waits, writes this record, or what Whole makes of a matrix, and changes nothing else. Here and
 * below a fitter's Fetch comes before it.
 */
void fetch(const char *what, uint32_t sector, const uint8_t due[HUBQR_RESULT_RECORD_BYTES]);
void fetch_whole(const char *what, uint32_t sector, uint32_t matrix);
/* A sector's Fetch writes this record and brings in what waits in the desk, with this heard byte. */
void fetch_next(const char *what, uint32_t sector, const uint8_t due[HUBQR_RESULT_RECORD_BYTES], uint8_t heard);
/* A sector's Fetch writes what Whole makes of a matrix, and brings in another one. */
void fetch_whole_next(const char *what, uint32_t sector, uint32_t matrix, uint32_t next);

#endif
