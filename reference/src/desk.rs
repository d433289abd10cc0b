//! The desk: eight sectors, each with a job of its own, its own share of the turns of a round, and
//! room for one matrix that waits for the job to be fetched.
//!
//! The desk has a seat for each sector, a value of its own with all that the desk knows of that
//! sector, and is nothing else. A call tests the role that it is made in before anything else, takes
//! the seat, does the factorization's own call with its job, and seats the sector anew. All calls
//! answer alike: what one of them does not speak of is 0.

use crate::area::AREA_WORDS;
use crate::calls;
use crate::clamps::Clamps;
use crate::job::Job;
use crate::matrix::Matrix;
use crate::records::{matrix_behind_kind, write_matrix, MATRIX_RECORD};
use crate::replies::Refusal;
use crate::role::Role;
use crate::schedule::TURNS;

/// Sectors of a hub.
pub const SECTORS: usize = 8;

/// What the shares of all sectors are at most, together.
pub const ROUND_TURNS: u16 = 120;

/// The share that each sector has at first.
pub const FIRST_SHARE: u16 = 15;

/// What the desk knows of one sector.
#[derive(Debug, Clone, Copy, PartialEq, Eq)]
pub struct Seat {
    pub job: Job,
    pub heard: u8,
    /// The turns that the sector gets when a round begins.
    pub share: u16,
    /// The turns that it has left in the round.
    pub left: u16,
    /// 0 when no matrix waits, and 1 when one does. A host may make up any other number, which means
    /// the same as 1.
    pub waits: u8,
    /// The record that waits. Of no meaning when none does: that of one that is loaded is not wiped.
    pub record: [u8; MATRIX_RECORD],
}

impl Seat {
    /// That of a sector never loaded, at the start of the first round.
    pub const NEW: Seat = Seat {
        job: Job::new(TURNS, 0),
        heard: 0,
        share: FIRST_SHARE,
        left: FIRST_SHARE,
        waits: 0,
        record: [0; MATRIX_RECORD],
    };

    /// The seat when a round begins. What was left is lost.
    fn refilled(self) -> Self {
        Seat {
            left: self.share,
            ..self
        }
    }

    /// Whether a matrix that is handed in is loaded at once: the job has no turn to make, and none
    /// waits. A job beyond the last turn, which only a host can make up, has none to make either.
    fn is_free(&self) -> bool {
        self.job.turn >= TURNS && self.waits == 0
    }

    /// The seat after a load, which fills the area. No count of turns is touched.
    fn loaded(self, matrix: &Matrix, area: &mut [i32; AREA_WORDS]) -> Self {
        let loaded = calls::fill(matrix, area);
        Seat {
            job: loaded.job,
            heard: loaded.heard,
            ..self
        }
    }

    /// The seat with a record that waits, whatever waited before.
    fn waited_for_by(self, record: [u8; MATRIX_RECORD]) -> Self {
        Seat {
            waits: 1,
            record,
            ..self
        }
    }

    /// The seat after the operator fetched its result from an area: what waits is loaded there. It was
    /// tested when it was handed in.
    fn fetched(self, area: &mut [i32; AREA_WORDS]) -> Self {
        if self.waits == 0 {
            return self;
        }
        let matrix = matrix_behind_kind(&self.record);
        Seat { waits: 0, ..self }.loaded(&matrix, area)
    }

    /// Test 13, of a job that exists.
    fn test_count(self, request: u16) -> Result<(), Refusal> {
        if request > 0 && !self.job.is_finished() && self.left == 0 {
            Err(Refusal::CountUsedUp)
        } else {
            Ok(())
        }
    }
}

/// What a host keeps for all sectors and hands from call to call. Anything may be handed in.
#[derive(Debug, Clone, Copy, PartialEq, Eq)]
pub struct Desk {
    pub seats: [Seat; SECTORS],
}

impl Desk {
    /// A new desk, which stands at the start of a round.
    pub const NEW: Desk = Desk {
        seats: [Seat::NEW; SECTORS],
    };

    /// Test 12, and the seat of a sector.
    fn seat(&self, sector: u32) -> Result<Seat, Refusal> {
        let seat = self.seats.get(sector as usize);
        seat.copied().ok_or(Refusal::Sector)
    }

    /// The desk with a sector seated anew, and everybody else where they were.
    fn seated(mut self, sector: u32, seat: Seat) -> Self {
        self.seats[sector as usize] = seat;
        self
    }

    /// The reply of a call that was handed this desk.
    fn answer(&self, reply: Result<DeskReply, Refusal>) -> DeskReply {
        reply.unwrap_or_else(|refusal| DeskReply::refused(refusal, self))
    }
}

/// What every call answers. A refused one answers its number and the desk as it was.
#[derive(Debug, Clone, Copy, PartialEq, Eq)]
pub struct DeskReply {
    pub number: u8,
    pub desk: Desk,
    pub heard: u8,
    pub job: Job,
    /// The turns granted, skipped ones included.
    pub count: u32,
    pub clamps: Clamps,
}

impl From<Desk> for DeskReply {
    /// An accepted call that has no more to say than the desk.
    fn from(desk: Desk) -> Self {
        DeskReply {
            number: 0,
            desk,
            heard: 0,
            job: Job::new(0, 0),
            count: 0,
            clamps: Clamps::NONE,
        }
    }
}

impl DeskReply {
    /// The reply of a refused call to the desk that it was handed.
    pub fn refused(refusal: Refusal, desk: &Desk) -> Self {
        DeskReply {
            number: refusal.number(),
            ..DeskReply::from(*desk)
        }
    }
}

/// Begins a round.
pub fn begin(role: u32, desk: &Desk) -> DeskReply {
    desk.answer(accept_begin(role, desk))
}

/// Sets all shares, that of sector k at place k. What the sectors have left is that of the round
/// that has begun.
pub fn set_shares(role: u32, desk: &Desk, shares: &[u16; SECTORS]) -> DeskReply {
    desk.answer(accept_shares(role, desk, shares))
}

/// Hands in a sector's matrix, which is loaded or waits, and answers the job and the heard byte that
/// the sector then has.
pub fn hand_in(role: u32, desk: &Desk, sector: u32, record: &[u8], area: &mut [i32]) -> DeskReply {
    desk.answer(accept_hand_in(role, desk, sector, record, area))
}

/// A sector's Run: of the turns that its job has left it makes at most the request, and at most
/// what the sector has left in the round.
pub fn run(role: u32, desk: &Desk, sector: u32, request: u16, area: &mut [i32]) -> DeskReply {
    desk.answer(accept_run(role, desk, sector, request, area))
}

/// A sector's Fetch. After that of the operator the matrix that waits is loaded; after that of a
/// fitter it goes on waiting.
pub fn fetch(
    role: u32,
    desk: &Desk,
    sector: u32,
    area: &mut [i32],
    buffer: &mut [u8],
) -> DeskReply {
    desk.answer(accept_fetch(role, desk, sector, area, buffer))
}

/// A sector's heard byte.
pub fn heard(role: u32, desk: &Desk, sector: u32) -> DeskReply {
    desk.answer(accept_heard(role, desk, sector))
}

fn accept_begin(role: u32, desk: &Desk) -> Result<DeskReply, Refusal> {
    Role::Operator.test(role)?;
    let seats = desk.seats.map(Seat::refilled);
    Ok(DeskReply::from(Desk { seats }))
}

fn accept_shares(role: u32, desk: &Desk, shares: &[u16; SECTORS]) -> Result<DeskReply, Refusal> {
    Role::Operator.test(role)?;
    let total: u32 = shares.iter().map(|share| u32::from(*share)).sum();
    if total > ROUND_TURNS.into() {
        return Err(Refusal::Shares);
    }
    let mut desk = *desk;
    for (seat, share) in desk.seats.iter_mut().zip(shares) {
        seat.share = *share;
    }
    Ok(DeskReply::from(desk))
}

fn accept_hand_in(
    role: u32,
    desk: &Desk,
    sector: u32,
    record: &[u8],
    area: &mut [i32],
) -> Result<DeskReply, Refusal> {
    Role::Operator.test(role)?;
    let seat = desk.seat(sector)?;
    let (matrix, area) = calls::test_load(record, area)?;
    let seat = if seat.is_free() {
        seat.loaded(&matrix, area)
    } else {
        seat.waited_for_by(write_matrix(&matrix))
    };
    Ok(DeskReply {
        heard: seat.heard,
        job: seat.job,
        ..DeskReply::from(desk.seated(sector, seat))
    })
}

fn accept_run(
    role: u32,
    desk: &Desk,
    sector: u32,
    request: u16,
    area: &mut [i32],
) -> Result<DeskReply, Refusal> {
    Role::Operator.test(role)?;
    let seat = desk.seat(sector)?;
    calls::lent_area(area)?;
    calls::test_job(seat.job)?;
    seat.test_count(request)?;
    let ran = calls::accept_run(seat.job, request.min(seat.left), area)?;
    let (job, count) = (ran.job, ran.count);
    let left = seat.left - count as u16;
    let seat = Seat { job, left, ..seat };
    Ok(DeskReply {
        job,
        count,
        clamps: ran.clamps,
        ..DeskReply::from(desk.seated(sector, seat))
    })
}

fn accept_fetch(
    role: u32,
    desk: &Desk,
    sector: u32,
    area: &mut [i32],
    buffer: &mut [u8],
) -> Result<DeskReply, Refusal> {
    let role = Role::Fitter.test(role)?;
    let seat = desk.seat(sector)?;
    calls::accept_fetch(seat.job, area, buffer)?;
    if role != Role::Operator {
        return Ok(DeskReply::from(*desk));
    }
    let seat = seat.fetched(calls::lent_area(area)?);
    Ok(DeskReply::from(desk.seated(sector, seat)))
}

fn accept_heard(role: u32, desk: &Desk, sector: u32) -> Result<DeskReply, Refusal> {
    Role::Viewer.test(role)?;
    let heard = desk.seat(sector)?.heard;
    Ok(DeskReply {
        heard,
        ..DeskReply::from(*desk)
    })
}

#[cfg(test)]
mod roles;

#[cfg(test)]
mod tests {
    use super::*;

    const OPERATOR: u32 = 2;

    /// Kind byte 1, and each part 257.
    const RECORD: [u8; 257] = [1; 257];

    fn loaded(sectors: &[u32], area: &mut [i32; 512]) -> Desk {
        sectors.iter().fold(Desk::NEW, |desk, &sector| {
            hand_in(OPERATOR, &desk, sector, &RECORD, area).desk
        })
    }

    /// What each sector has left.
    fn left(desk: &Desk) -> [u16; 8] {
        desk.seats.map(|seat| seat.left)
    }

    #[test]
    fn a_new_desk_has_nobody_loaded_and_15_turns_for_each() {
        let seat = Seat {
            job: Job::new(120, 0),
            heard: 0,
            share: 15,
            left: 15,
            waits: 0,
            record: [0; 257],
        };
        assert_eq!(Desk::NEW.seats, [seat; 8]);
    }

    #[test]
    fn a_round_refills_each_count_from_its_share_and_adds_nothing() {
        let desk = |left: fn(u16) -> u16| Desk {
            seats: [0, 1, 2, 3, 4, 5, 6, 7].map(|k| Seat {
                heard: k as u8,
                share: 9_000 * k,
                left: left(k),
                ..Seat::NEW
            }),
        };
        let reply = begin(OPERATOR, &desk(|k| 7 - k));
        assert_eq!(reply, DeskReply::from(desk(|k| 9_000 * k)));
    }

    /// The total is exact: 65,535 and 1 are not 0.
    #[test]
    fn shares_are_set_up_to_120_in_total_and_count_later() {
        for shares in [[15; 8], [0; 8], [120, 0, 0, 0, 0, 0, 0, 0], [8; 8]] {
            let reply = set_shares(OPERATOR, &Desk::NEW, &shares);
            assert_eq!((reply.number, left(&reply.desk)), (0, [15; 8]));
            assert_eq!(reply.desk.seats.map(|seat| seat.share), shares);
            assert_eq!(left(&begin(OPERATOR, &reply.desk).desk), shares);
        }
        let refused = DeskReply::refused(Refusal::Shares, &Desk::NEW);
        assert_eq!((refused.number, refused.desk), (14, Desk::NEW));
        for shares in [[16; 8], [65_535; 8], [8_192; 8], [0, 0, 0, 0, 0, 0, 0, 121]] {
            assert_eq!(set_shares(OPERATOR, &Desk::NEW, &shares), refused);
        }
        let wrapping = [65_535, 0, 0, 0, 0, 0, 0, 1];
        assert_eq!(set_shares(OPERATOR, &Desk::NEW, &wrapping), refused);
    }

    /// A desk at which sector 3 has a job, and a count that is not its share.
    fn desk_at(turn: u32, made: u32) -> Desk {
        let mut desk = Desk::NEW;
        desk.seats[3] = Seat {
            job: Job::new(turn, made),
            heard: 7,
            share: 9,
            left: 4,
            ..Seat::NEW
        };
        desk
    }

    /// Turns beyond the last are none to make. What waited before and was loaded stays where it was.
    #[test]
    fn a_matrix_for_a_free_sector_is_loaded() {
        for (turn, made) in [(120, 0), (120, 120), (121, 0), (u32::MAX, u32::MAX)] {
            let (mut area, mut due) = ([7; 512], desk_at(turn, made));
            due.seats[3].record = [9; 257];
            let reply = hand_in(OPERATOR, &due, 3, &RECORD, &mut area);
            assert_eq!((reply.number, reply.heard), (0, 255));
            assert_eq!((reply.job, reply.count), (Job::new(0, 0), 0));
            (due.seats[3].job, due.seats[3].heard) = (Job::new(0, 0), 255);
            assert_eq!(reply.desk, due);
            assert_eq!((area[0], area[16]), (257 << 13, 1 << 30));
        }
    }

    #[test]
    fn a_matrix_for_a_sector_that_is_not_free_waits() {
        for (turn, made, waits) in [
            (0, 0, 0),
            (119, 5, 0),
            (5, 6, 0),
            (120, 0, 1),
            (121, 0, 255),
        ] {
            let (mut area, mut due) = ([7; 512], desk_at(turn, made));
            (due.seats[3].waits, due.seats[3].record) = (waits, [9; 257]);
            let reply = hand_in(OPERATOR, &due, 3, &RECORD, &mut area);
            assert_eq!((reply.number, reply.heard), (0, 7));
            assert_eq!(reply.job, Job::new(turn, made));
            (due.seats[3].waits, due.seats[3].record) = (1, RECORD);
            assert_eq!((reply.desk, area), (due, [7; 512]));
        }
    }

    #[test]
    fn a_matrix_that_is_refused_leaves_the_one_that_waits() {
        let mut desk = desk_at(5, 5);
        (desk.seats[3].waits, desk.seats[3].record) = (1, RECORD);
        let (mut area, none_heard) = ([7; 512], [&[1], &[0; 256][..]].concat());
        let mut number = |record: &[u8], words: usize| {
            let reply = hand_in(OPERATOR, &desk, 3, record, &mut area[..words]);
            assert_eq!((reply.desk, reply.heard), (desk, 0));
            reply.number
        };
        assert_eq!(number(&[], 511), 1);
        assert_eq!(number(&[1], 511), 2);
        assert_eq!(number(&RECORD, 511), 3);
        assert_eq!(number(&none_heard, 512), 4);
        assert_eq!(area, [7; 512]);
    }

    /// Only the operator's Fetch that succeeds brings it in, and it is not tested again: kind byte and
    /// heard byte may be anything.
    #[test]
    fn a_fetch_brings_in_what_waits() {
        for (waits, kind, part, heard) in [(1, 1, 1, 255), (2, 0, 1, 255), (255, 2, 0, 0)] {
            let (mut area, mut buffer) = ([0; 512], [7; 2049]);
            let mut due = desk_at(120, 8);
            let mut record = [part; 257];
            record[0] = kind;
            (due.seats[3].waits, due.seats[3].record) = (waits, record);
            let refused = fetch(OPERATOR, &due, 3, &mut area, &mut buffer[..2048]);
            assert_eq!(refused, DeskReply::refused(Refusal::Buffer, &due));
            assert_eq!((area, buffer), ([0; 512], [7; 2049]));
            let reply = fetch(OPERATOR, &due, 3, &mut area, &mut buffer);
            (due.seats[3].job, due.seats[3].heard) = (Job::new(0, 0), heard);
            due.seats[3].waits = 0;
            assert_eq!(reply, DeskReply::from(due));
            assert_eq!((area[16], buffer[..3].to_vec()), (1 << 30, vec![2, 0, 0]));
        }
    }

    #[test]
    fn a_fetch_with_none_waiting_may_be_repeated() {
        let (mut area, desk) = ([0; 512], desk_at(120, 8));
        for _ in 0..2 {
            let reply = fetch(OPERATOR, &desk, 3, &mut area, &mut [0; 2049]);
            assert_eq!((reply, area), (DeskReply::from(desk), [0; 512]));
        }
    }

    /// The smallest of the request, what the sector has left and what its job has left. Nobody else
    /// pays.
    #[test]
    fn a_run_is_granted_the_smallest_of_three() {
        let mut area = [0; 512];
        let mut desk = loaded(&[0, 1], &mut area);
        (desk.seats[0].left, desk.seats[1].left) = (130, 20);
        for (sector, request, count, of_0, of_1) in [
            (0, 50, 50, 80, 20),
            (1, 0, 0, 80, 20),
            (1, 21, 20, 80, 0),
            (0, 65_535, 70, 10, 0),
            (0, 9, 0, 10, 0),
            (1, 0, 0, 10, 0),
            (2, 9, 0, 10, 0),
        ] {
            let reply = run(OPERATOR, &desk, sector, request, &mut area);
            assert_eq!((reply.number, reply.count), (0, count));
            desk = reply.desk;
            assert_eq!(left(&desk), [of_0, of_1, 15, 15, 15, 15, 15, 15]);
        }
        assert_eq!(desk.seats[0].job.turn, 120);
        let refused = DeskReply::refused(Refusal::CountUsedUp, &desk);
        assert_eq!(run(OPERATOR, &desk, 1, 1, &mut area), refused);
        assert_eq!((refused.number, refused.job), (13, Job::new(0, 0)));
        desk = begin(OPERATOR, &desk).desk;
        let reply = run(OPERATOR, &desk, 1, 9, &mut area);
        assert_eq!((reply.count, reply.desk.seats[1].left), (9, 6));
    }

    #[test]
    fn a_run_makes_its_tests_in_order() {
        let (short, full) = (&mut [0; 511][..], &mut [0; 512][..]);
        let desk = |turn, made| {
            let mut desk = Desk::NEW;
            desk.seats[7].job = Job::new(turn, made);
            desk.seats[7].left = 0;
            desk
        };
        assert_eq!(run(OPERATOR, &desk(5, 6), 8, 1, short).number, 12);
        assert_eq!(run(OPERATOR, &desk(5, 6), 7, 1, short).number, 3);
        assert_eq!(run(OPERATOR, &desk(5, 6), 7, 1, full).number, 5);
        assert_eq!(run(OPERATOR, &desk(5, 5), 7, 1, full).number, 13);
        assert_eq!(run(OPERATOR, &desk(5, 5), 7, 0, full).number, 0);
        assert_eq!(run(OPERATOR, &desk(120, 5), 7, 1, full).number, 0);
    }

    #[test]
    fn a_sector_above_7_is_refused_ahead_of_all_but_the_role() {
        let desk = &Desk::NEW;
        for sector in [8, 255, 256, u32::MAX] {
            let refused = DeskReply::refused(Refusal::Sector, desk);
            assert_eq!(hand_in(OPERATOR, desk, sector, &[], &mut []), refused);
            assert_eq!(run(OPERATOR, desk, sector, 1, &mut []), refused);
            for role in 1..=2 {
                assert_eq!(fetch(role, desk, sector, &mut [], &mut []), refused);
            }
            for role in 0..=2 {
                assert_eq!(heard(role, desk, sector), refused);
            }
        }
    }
}
