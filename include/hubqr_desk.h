/*
 * SPDX-License-Identifier: Apache-2.0
 *
 * hubqr_desk.h - a desk for eight sectors: a radio hub that serves sectors 0 to 7 works the matrix of each in an area of its own,
 * and the desk grants each its share of a round's turns and keeps the matrix of each that comes early until the one before it is
 * fetched. Each call is made for a role, which decides who may see what: a viewer is answered the heard byte and nothing else, a
 * fitter gets the result record too, and the operator alone changes anything.
 * hubqr.h includes this header, and what it says on replies, ownership, threads, aliasing, null, lengths and versions holds here
 * as well.
 *
 * Use
 *   Once:             hubqr_desk_new.
 *   For each matrix:  hubqr_desk_hand_in, then hubqr_desk_run, over as many rounds as it takes, until desk.jobs[sector].turn is
 *                     HUBQR_TURNS, then hubqr_desk_fetch. Each is for one sector and is lent the area of that sector.
 *   If one is early:  hubqr_desk_hand_in all the same, while the one before it is worked. It waits in the desk, and the
 *                     hubqr_desk_fetch of the one before it brings it in, so that hubqr_desk_run goes on with it.
 *   For each round:   hubqr_desk_begin, when the host has time for the turns of all shares, 120 at most.
 *   At any time:      hubqr_desk_set_shares, for shares that count from the next round on; hubqr_desk_heard, for the heard byte
 *                     of a sector.
 *   For a fitter:     hubqr_desk_fetch with HUBQR_FITTER, which brings nothing in, and hubqr_desk_heard.
 *   For a viewer:     hubqr_desk_heard with HUBQR_VIEWER.
 *   The other lines are the operator's, with HUBQR_OPERATOR. Each call but hubqr_desk_new is handed the role and the desk, and
 *   answers the desk in its reply. By pointer, hubqr_desk_begin_at, hubqr_desk_set_shares_at, hubqr_desk_hand_in_at,
 *   hubqr_desk_run_at, hubqr_desk_fetch_at and hubqr_desk_heard_at do the same with a desk that stays where it is.
 *
 * Words used below
 *   role     For whom a call is made: viewer, fitter or operator, by the numbers of enum hubqr_role. A viewer may ask for the
 *            heard byte, a fitter may fetch results too, and the operator may make every call. Any other call, and every call by
 *            a number that is no role, is refused with 15.
 *   sector   One of the eight that a hub serves, by its number, 0 to 7. The desk holds its job and its heard byte, which hubqr.h
 *            explains, its share, what it has left, and the matrix that waits for it; its area is the caller's. A sector that
 *            was never loaded has the job (120, 0) and heard byte 0, as if its work were done.
 *   hand-in  A call of hubqr_desk_hand_in. Where the sector's job is finished and no matrix waits for it, the matrix handed in is
 *            loaded; otherwise it waits. `waits` of the desk that is answered tells which it was.
 *   waits    A matrix waits while the desk keeps its record. One waits for a sector at most: the next that is handed in takes its
 *            place. The operator's hubqr_desk_fetch that is accepted brings it in: once the result is written, the matrix that
 *            waits is loaded into the area that the Fetch was lent, and none waits. A fitter's never does.
 *   loaded   A sector is loaded by a hand-in that does not wait, or by a Fetch that brings one in, and in no other way. Its job
 *            becomes (0, 0), and its heard byte that of the matrix.
 *   share    The turns that a sector has in a round: HUBQR_FIRST_SHARE, which is 15, at a new desk, and then what
 *            hubqr_desk_set_shares gives it. All shares together are at most HUBQR_ROUND_TURNS, which is 120, and may be fewer.
 *            A share may be 0: in a round that begins with it the sector is granted no turn.
 *   round    What the operator begins by hubqr_desk_begin; a new desk stands at the start of one. Shares that are set in a round
 *            count from the next one on.
 *   left     The remaining count of a sector: the turns that it has left in the round. It is refilled from the sector's share
 *            when a round begins. Turns that a sector has left then are not added.
 *   request  The most turns that a sector's hubqr_desk_run may go on by.
 *   granted  How many turns it goes on by: the smallest of its request, what the sector has left in the round, and what its job
 *            has left, which is 120 less its turn number. Clear turns are skipped, as hubqr_run does, and count like any other.
 *            The sector's own remaining count pays what was granted, and no other sector's does.
 *
 * Which result is fetched, and which is lost
 *   While a matrix waits, Run and Fetch go on with the earlier one. A job that is unfinished cannot be dropped: a host that wants
 *   the new matrix at once runs the old one to its end and fetches it, or begins with a new desk, which is one for all sectors.
 *   A finished result is kept in the area alone. Where none waits, a hand-in is loaded over it, whether it was fetched or not:
 *   fetch it before. Where one waits, a hand-in loses nothing but the matrix that waited, and the operator's Fetch alone brings
 *   the next one in.
 *   A fitter's Fetch brings nothing in and changes nothing but the buffer: while one waits, it writes the same result each time,
 *   until the operator's Fetch. So what a fitter has fetched is still to be fetched by the operator, before the matrix that waits
 *   is worked.
 *
 * What is proved
 *   Each call does what is said with it, whatever role, desk, sector, shares, area, record and buffer it is handed. Besides, let
 *   each call be handed the desk that the last one answered, that of a refused call too. Whatever desk the first one is handed,
 *   and whatever areas all of them are lent,
 *     what a viewer is answered, but for the desk, tells nothing but heard bytes: let others do as they like at two desks, let a
 *     viewer make the same calls at both, and let all eight heard bytes of the two agree at each of these calls; then the
 *     viewer's replies are the same, whatever the results are;
 *     what a fitter is answered, but for the desk, and what its Fetch writes depend on the heard bytes, on whether the sector's
 *     job passes tests 5 and 6, and on the area and the buffer that are lent; not on how many turns were made, beyond test 5, on
 *     shares, on what any sector has left, or on what waits;
 *     only the operator changes anything: a call for anybody else leaves the desk and every area as they were.
 *   Let the desk come from hubqr_desk_new, and let each sector have an area that is lent to all calls for that sector and that
 *   nobody else writes to, not even a call for another sector: the areas of two sectors may not overlap. Then
 *     a sector's area, job and heard byte are as if it had run alone with the turns granted to it;
 *     these, what is granted to it and all else that its calls answer, but for the desk, depend on its own shares, job and
 *     requests, on what its calls are handed and on when rounds begin, whatever the other seven do;
 *     what a sector was granted in a round and what it has left make the share that it had when the round began, so that it is
 *     never granted more than that share, and all sectors together are never granted more than 120;
 *     a loaded sector that is not loaded again, neither by a hand-in nor by a Fetch that brings one in, that has an unchanged
 *     share s above 0, and for which the operator requests s or more, with an area of at least 512 words, in every round that the
 *     operator begins after the load, finishes within 120 divided by s such rounds, rounded up: with the share 15 within 8, with
 *     50 within 3.
 *   Whatever areas the calls of such a desk are lent,
 *     a sector's heard byte changes only when it is loaded;
 *     whatever waits for a sector has passed the tests of hubqr_load, and is the record of its last hand-in that was accepted;
 *     where none waits, the sector's job was loaded from that one.
 *   If each of a sector's accepted calls since it was loaded is lent the area that the load filled, and nobody else writes to it,
 *     each result fetched from the sector, by the operator or by a fitter, has the bounds that hubqr.h gives, against the matrix
 *     that its job was loaded from;
 *     a Fetch that is repeated, by either of them, writes the same bytes until the sector is loaded again.
 *
 * What a role does not decide
 *   Who the caller is, is the host's affair: the library believes the role that it is handed.
 *   The desk in every reply is for the host alone, whatever the role, since it holds the jobs and shares of all sectors, what
 *   they have left and the matrices that wait. Hand to a viewer or a fitter the fields that are theirs: `number` and `heard` that
 *   hubqr_desk_heard answers, and to a fitter also `number` that hubqr_desk_fetch answers and, if that is HUBQR_ACCEPTED, the
 *   2,049 bytes that it wrote. After a refusal the buffer has what it had before, which may not be theirs. Never hand them the
 *   desk, a reply that holds it, or an area, which has the words of R and Q.
 *   Time is not covered: how long a call takes may tell something of what the desk and the area hold.
 *
 * Keeping the desk
 *   The desk is 2,168 bytes of plain numbers and the caller's own. No byte of it is padding, so that memcmp tells whether two
 *   desks are the same. It may be copied and kept anywhere; a stored desk belongs to the version that made it. Calls for one desk
 *   go one after the other, whatever their sectors and roles, since each needs the desk that the last one answered. An older desk
 *   is not noticed: its counts grant turns a second time, its jobs no longer fit their areas, and a matrix that was loaded waits
 *   again.
 *   In each call it is on the caller's stack twice, as it is handed over and in the reply, in the calls by pointer as well.
 *   A matrix that waits is in the desk by value, so that its record need not outlast the hand-in. Its bytes stay in `records`
 *   when it is brought in, until another matrix waits for that sector. They mean nothing then, though memcmp sees them; but
 *   whoever keeps the desk keeps these matrices, too.
 *   No call tests the desk as a whole. Every call takes one that the caller has made up as it is, and does with it what is said
 *   below: `shares` and `left` may be up to 65,535 at each place, whatever they make in total. hubqr_desk_begin copies shares
 *   untested, since test 14 looks at nothing but the shares that hubqr_desk_set_shares is handed; a sector then has as many turns
 *   as its count says. Where `waits` is above 1, it means what 1 means; no call makes such a number. What waits is tested when
 *   it is handed in and not again when it is brought in: of a record that was made up the parts are loaded as they stand, its
 *   kind byte is not looked at, and the heard byte is that of its diagonal, which may be 0. A job that is none is refused with 5
 *   at hubqr_desk_run and hubqr_desk_fetch. For a hand-in it is finished where its turn number is 120 or more, so that a sector
 *   with the job (121, 0), for which none waits, is loaded again; (5, 6) is unfinished, and the matrix waits until the caller has
 *   put the desk right, for instance by the job (120, 0) and `waits` 0, and has handed it in again. With the job (120, 0) alone
 *   Fetch makes test 8 of whatever the area holds. What is said of a sector that was loaded, or never loaded, of what waits, and
 *   of the shares in total is for desks that came from hubqr_desk_new by calls alone.
 *
 * Refusals
 *   A refused call changes nothing: it answers the desk that it was handed, and leaves the area and the buffer as they were. So a
 *   matrix that waits goes on waiting when a hand-in or a Fetch is refused. All other fields of the reply are 0. A refused
 *   hubqr_desk_run answers the job (0, 0) as well, unlike hubqr_run, which answers the job that it was handed, and so does a
 *   refused hand-in, whatever job the sector has: keep the desk, which has the sector's job.
 *   Test 15, whether the role may make the call, comes before all others, ahead of 12 and of 14, whatever else is handed over, so
 *   that this refusal tells nothing of any sector. A role is a number of 32 bits, so that -1, 256, 257, 258 and 65,538 are
 *   refused and not cut to one from 0 to 2. Test 12, whether the sector is above 7, comes next. A sector has 32 bits as well, so
 *   that -1, 256 and 65,536 are refused and not cut to one from 0 to 7. C cuts wider types: keep roles and sectors in 32 bits.
 *   A request and a share have 16 bits: C makes 0 of 65,536 before the call sees it, and a compiler reports that of constants
 *   alone. Such a request is accepted and grants nothing, and such a share adds nothing to the total that test 14 looks at: keep
 *   shares in 16 bits, or test them before they are cut.
 */
#ifndef HUBQR_DESK_H
#define HUBQR_DESK_H

#include "hubqr_base.h"

/* Sectors of a hub, what the shares of all of them make at most, and the share of each at a new desk. */
#define HUBQR_SECTORS 8
#define HUBQR_ROUND_TURNS 120
#define HUBQR_FIRST_SHARE 15

#ifdef __cplusplus
extern "C" {
#endif

/* The roles. Every other number is none, and every call refuses it with 15. */
enum hubqr_role {
    HUBQR_VIEWER = 0,  /* may ask for the heard byte and is answered nothing else: a site owner, who must not see beams */
    HUBQR_FITTER = 1,  /* may ask for the heard byte and fetch results, and changes neither a desk nor an area */
    HUBQR_OPERATOR = 2 /* may make every call: alone hands in, runs, begins rounds, sets shares and brings in what waits */
};

/* How far the work for all sectors is, what each has of a round, and which matrix waits for it. */
struct hubqr_desk {
    struct hubqr_job jobs[HUBQR_SECTORS]; /* the job of sector k at place k */
    uint8_t heard[HUBQR_SECTORS];         /* the heard byte of sector k at place k */
    uint16_t shares[HUBQR_SECTORS];       /* the share of sector k at place k */
    uint16_t left[HUBQR_SECTORS];         /* the turns that sector k has left in the round at place k */
    uint8_t waits[HUBQR_SECTORS];         /* at place k 1 when a matrix waits for sector k, 0 when none does */

    /* the matrix record that waits for sector k, in the 257 bytes from place 257 * k on */
    uint8_t records[HUBQR_SECTORS * HUBQR_MATRIX_RECORD_BYTES];
};

/*
 * A new desk: no sector is loaded, each has the job (120, 0), heard byte 0 and a share of 15 turns, and all of them left. No
 * matrix waits, and all bytes of `records` are 0. It is made for no role.
 */
struct hubqr_desk hubqr_desk_new(void) HUBQR_REPLY;

/* What beginning a round, setting shares and Fetch answer. */
struct hubqr_desk_reply {
    struct hubqr_desk desk; /* the desk to hand to the next call; refused: the one that was handed over */
    uint8_t number;         /* HUBQR_ACCEPTED, or the refusal */
};

/*
 * Begin: begins a round. What each sector has left becomes its share, and nothing else of the desk changes.
 * For the operator alone. Test: 15.
 */
struct hubqr_desk_reply hubqr_desk_begin(uint32_t role, struct hubqr_desk desk) HUBQR_REPLY;

/* The shares of all sectors. */
struct hubqr_shares {
    uint16_t shares[HUBQR_SECTORS]; /* the share of sector k at place k */
};

/*
 * Set shares: the desk gets all eight shares, which count from the next round on. What each sector has left in this round stays,
 * and so does all else of the desk.
 * For the operator alone. Tests, in this order: 15; 14, when the shares handed over are above 120 in total. The total is exact,
 * for eight shares of 65,535 too.
 */
struct hubqr_desk_reply hubqr_desk_set_shares(uint32_t role, struct hubqr_desk desk, struct hubqr_shares shares) HUBQR_REPLY;

/* What a hand-in answers. */
struct hubqr_desk_load_reply {
    struct hubqr_desk desk; /* the desk to hand to the next call; refused: the one that was handed over */
    uint8_t number;         /* HUBQR_ACCEPTED, or the refusal */
    uint8_t heard;          /* the sector's heard byte: if the matrix waits, that of the earlier one; refused: 0 */
    struct hubqr_job job;   /* the sector's job: (0, 0), or if the matrix waits, that of the earlier one; refused: (0, 0) */
};

/*
 * Hand-in, for a sector: tests a matrix record as hubqr_load does, and loads it or lets it wait.
 * If the job's turn number is not under 120 and none waits: fills the area's 512 words from the record. The sector's job becomes
 * (0, 0), and its heard byte that of the record. A result in the area that was not fetched is lost.
 * Otherwise the desk keeps the record, in the place of one that waited. The area stays as it is, and so do the sector's job and
 * heard byte, which are answered as they stand. An area of at least 512 words has to be lent all the same.
 * In either case the sector's remaining count pays nothing and is not refilled.
 * For the operator alone. Tests, in this order: 15, 12, 1, 2, 3, 4.
 */
struct hubqr_desk_load_reply hubqr_desk_hand_in(uint32_t role, struct hubqr_desk desk, uint32_t sector, const uint8_t *record,
                                                size_t record_len, int32_t *area, size_t area_len)
    HUBQR_REPLY HUBQR_READS(4, 5) HUBQR_FILLS(6, 7);

/* What a sector's Run answers. */
struct hubqr_desk_run_reply {
    struct hubqr_desk desk; /* the desk to hand to the next call; refused: the one that was handed over */
    uint8_t number;         /* HUBQR_ACCEPTED, or the refusal */
    struct hubqr_job job;   /* the sector's job; refused: (0, 0), and the desk has the sector's job */
    uint32_t count;         /* the turns granted, the skipped ones included */
    uint32_t clamps_r;      /* the clamps counted in this call in columns 0 to 15, which hold R */
    uint32_t clamps_q;      /* the clamps counted in this call in columns 16 to 31, which hold Q */
};

/*
 * Run, for a sector: goes on by the turns granted, as hubqr_run does with the sector's job and that allowance. The desk gets the
 * sector's next job, and the sector has that many turns less left; nothing changes of the others. Request 0 and turn number 120
 * are no errors, whatever the sector has left: no turn is made. So for a sector that was never loaded only tests 15, 12 and 3 can
 * fail, and the area is left as it is.
 * For the operator alone. Tests, in this order: 15; 12; 3; 5, of the sector's job; 13, when the request is above 0, the job's
 * turn number under 120, and the sector has 0 left, whatever others have left.
 */
struct hubqr_desk_run_reply hubqr_desk_run(uint32_t role, struct hubqr_desk desk, uint32_t sector, uint16_t request,
                                           int32_t *area, size_t area_len)
    HUBQR_REPLY HUBQR_CHANGES(5, 6);

/*
 * Fetch, for a sector: writes the result record into the first 2,049 bytes of the buffer, as hubqr_fetch does. For a sector that
 * was never loaded, the record has the words that the area has.
 * If the operator fetches and a matrix waits, it is then brought in: the area's 512 words are filled from its record, the
 * sector's job becomes (0, 0), its heard byte that of the record, and none waits. Its remaining count pays nothing and is not
 * refilled. So look at the job and the heard byte that belong to a result before it is fetched; a second Fetch is refused with 6.
 * If a fitter fetches, or none waits, area and desk stay as they are: what waits goes on waiting, and Fetch may be repeated,
 * which writes the same bytes until the next load. A fitter's Fetch is lent an area that may be changed all the same.
 * For a fitter and the operator. Tests, in this order: 15, 12, 3, 5, 6, 7, 8. Test 8 never fails for a sector that was loaded, if
 * desk and area are as said above.
 */
struct hubqr_desk_reply hubqr_desk_fetch(uint32_t role, struct hubqr_desk desk, uint32_t sector, int32_t *area, size_t area_len,
                                         uint8_t *buffer, size_t buffer_len)
    HUBQR_REPLY HUBQR_CHANGES(4, 5) HUBQR_FILLS(6, 7);

/* What asking for the heard byte answers. */
struct hubqr_desk_heard_reply {
    struct hubqr_desk desk; /* the desk that was handed over */
    uint8_t number;         /* HUBQR_ACCEPTED, or the refusal */
    uint8_t heard;          /* the sector's heard byte: that of the matrix last loaded, 0 if none was; refused: 0 */
};

/*
 * Heard: answers a sector's heard byte. A matrix that waits has no part in it. The desk stays as it is.
 * For every one of the three roles. Tests, in this order: 15, when `role` is none of them; 12.
 */
struct hubqr_desk_heard_reply hubqr_desk_heard(uint32_t role, struct hubqr_desk desk, uint32_t sector) HUBQR_REPLY;

/*
 * The calls by pointer: the desk is changed in place, and a refusal leaves it as it is. It may not overlap the record, the area
 * or the buffer. Begin, Set shares and Fetch answer the number, the others their reply.
 */
HUBQR_REPLY HUBQR_NONNULL(2)
static inline uint8_t hubqr_desk_begin_at(uint32_t role, struct hubqr_desk *desk)
{
    struct hubqr_desk_reply reply = hubqr_desk_begin(role, *desk);
    *desk = reply.desk;
    return reply.number;
}

HUBQR_REPLY HUBQR_NONNULL(2)
static inline uint8_t hubqr_desk_set_shares_at(uint32_t role, struct hubqr_desk *desk, struct hubqr_shares shares)
{
    struct hubqr_desk_reply reply = hubqr_desk_set_shares(role, *desk, shares);
    *desk = reply.desk;
    return reply.number;
}

HUBQR_REPLY HUBQR_NONNULL(2) HUBQR_READS(4, 5) HUBQR_FILLS(6, 7)
static inline struct hubqr_desk_load_reply hubqr_desk_hand_in_at(uint32_t role, struct hubqr_desk *desk, uint32_t sector,
                                                                 const uint8_t *record, size_t record_len, int32_t *area,
                                                                 size_t area_len)
{
    struct hubqr_desk_load_reply reply = hubqr_desk_hand_in(role, *desk, sector, record, record_len, area, area_len);
    *desk = reply.desk;
    return reply;
}

HUBQR_REPLY HUBQR_NONNULL(2) HUBQR_CHANGES(5, 6)
static inline struct hubqr_desk_run_reply hubqr_desk_run_at(uint32_t role, struct hubqr_desk *desk, uint32_t sector,
                                                            uint16_t request, int32_t *area, size_t area_len)
{
    struct hubqr_desk_run_reply reply = hubqr_desk_run(role, *desk, sector, request, area, area_len);
    *desk = reply.desk;
    return reply;
}

HUBQR_REPLY HUBQR_NONNULL(2) HUBQR_CHANGES(4, 5) HUBQR_FILLS(6, 7)
static inline uint8_t hubqr_desk_fetch_at(uint32_t role, struct hubqr_desk *desk, uint32_t sector, int32_t *area, size_t area_len,
                                          uint8_t *buffer, size_t buffer_len)
{
    struct hubqr_desk_reply reply = hubqr_desk_fetch(role, *desk, sector, area, area_len, buffer, buffer_len);
    *desk = reply.desk;
    return reply.number;
}

/* The desk is only read. */
HUBQR_REPLY HUBQR_NONNULL(2)
static inline struct hubqr_desk_heard_reply hubqr_desk_heard_at(uint32_t role, const struct hubqr_desk *desk, uint32_t sector)
{
    return hubqr_desk_heard(role, *desk, sector);
}

#ifdef __cplusplus
}
#endif

#endif
