//! The job: a clear turn is skipped and counts in the turn number alone, any other is made and counts
//! in both numbers.
use crate::lent::{at, matrix, Lent, NO_CLAMPS};
use hubqr::{ffi, Job, KIND_RESULT, Q_ONE, RESULT_RECORD_BYTES};
use std::mem::{offset_of, size_of};

/// A matrix without pattern, of whose turns none is clear.
fn full() -> Vec<u8> {
    matrix(element)
}

/// The same with nothing in the columns of antennas 4 to 7.
fn half_empty() -> Vec<u8> {
    matrix(|row, column| match column {
        0..4 => element(row, column),
        _ => (0, 0),
    })
}

/// Element (row, column) of the full one, as a pair of its parts.
pub fn element(row: usize, column: usize) -> (i16, i16) {
    let n = 8 * row as i32 + column as i32;
    let part = |number: i32| (number % 65536 - 32768) as i16;
    let (re, im) = (7919 * n * n + 123 * n + 7, 4447 * n * n * n + 5 * n + 77);
    (part(re), part(im))
}

fn diagonal() -> Vec<u8> {
    matrix(|i, j| if i == j { (i16::MAX, 0) } else { (0, 0) })
}

/// A loaded record, and the job that goes with it.
struct Work {
    lent: Lent,
    job: Job,
}

impl Work {
    fn new(record: &[u8]) -> Work {
        let mut lent = Lent::new();
        let job = hubqr::load(record, &mut lent.area).unwrap().job;
        assert_eq!(job, at(0, 0));
        Work { lent, job }
    }

    /// Goes on by `count` turns, of which so many are made.
    fn run_on(&mut self, count: u16, made: u32) {
        let due = at(self.job.turn + u32::from(count), self.job.made + made);
        let progress = hubqr::run(self.job, count, &mut self.lent.area).unwrap();
        assert_eq!((progress.job, progress.count), (due, count.into()));
        assert_eq!(progress.clamps, NO_CLAMPS);
        self.job = due;
    }

    /// What all the work costs in Runs of an allowance.
    fn cost(mut self, allowance: u16) -> u32 {
        while !self.job.is_finished() {
            let progress = hubqr::run(self.job, allowance, &mut self.lent.area).unwrap();
            self.job = progress.job;
        }
        self.job.made
    }
}

#[test]
fn structs_of_jobs_have_their_layout_in_c() {
    assert_eq!(size_of::<Job>(), 8);
    assert_eq!((offset_of!(Job, turn), offset_of!(Job, made)), (0, 4));
    assert_eq!(size_of::<ffi::LoadReply>(), 12);
    assert_eq!(offset_of!(ffi::LoadReply, number), 0);
    assert_eq!(offset_of!(ffi::LoadReply, heard), 1);
    assert_eq!(offset_of!(ffi::LoadReply, job), 4);
    assert_eq!(size_of::<ffi::RunReply>(), 24);
    assert_eq!(offset_of!(ffi::RunReply, number), 0);
    assert_eq!(offset_of!(ffi::RunReply, job), 4);
    assert_eq!(offset_of!(ffi::RunReply, count), 12);
    assert_eq!(offset_of!(ffi::RunReply, clamps_r), 16);
    assert_eq!(offset_of!(ffi::RunReply, clamps_q), 20);
    assert_eq!(size_of::<ffi::ReadReply>(), 12);
    assert_eq!(offset_of!(ffi::ReadReply, number), 0);
    assert_eq!(offset_of!(ffi::ReadReply, job), 4);
}

#[test]
fn turn_number_120_alone_is_finished() {
    for made in [0, 119, 120] {
        assert!(at(120, made).is_finished());
    }
    for job in [at(0, 0), at(119, 0), at(119, 119), at(121, 120)] {
        assert!(!job.is_finished());
    }
}

/// The last turn, of column 14 and rows 14 and 15, after any count of turns made. A clear one leaves
/// all words as they are.
#[test]
fn a_clear_turn_is_skipped() {
    for (upper, lower, made) in [
        (0, 0, 0),
        (1, 0, 0),
        (i32::MAX, 0, 0),
        (-1, 0, 1),
        (i32::MIN, 0, 1),
        (0, 1, 1),
        (0, -1, 1),
        (1, 1, 1),
    ] {
        for before in [0, 1, 60, 118, 119] {
            let mut lent = Lent::new();
            lent.area[32 * 14 + 14] = upper;
            lent.area[32 * 15 + 14] = lower;
            let kept = lent.clone();
            let progress = hubqr::run(at(119, before), 1, &mut lent.area).unwrap();
            assert_eq!((progress.job, progress.count), (at(120, before + made), 1));
            assert_eq!(lent == kept, made == 0, "({upper}, {lower})");
        }
    }
}

/// One turn after the other is made, and then no turn of what they leave: R is clear.
#[test]
fn a_full_matrix_costs_all_120_turns() {
    let mut work = Work::new(&full());
    for _ in 0..120 {
        work.run_on(1, 1);
    }
    assert_eq!(work.job, at(120, 120));
    let finished = work.lent.clone();
    work.job = at(0, 0);
    work.run_on(120, 0);
    assert_eq!(work.lent, finished);
    Work::new(&full()).run_on(120, 120);
}

/// Made real, the matrix has numbers in columns 0 to 3 and 8 to 11 alone. Column j of these costs
/// 15 - j turns, 76 in all, and the others cost none.
#[test]
fn a_half_empty_matrix_costs_76_turns() {
    let mut work = Work::new(&half_empty());
    work.run_on(54, 54);
    let kept = work.lent.clone();
    work.run_on(7, 0);
    assert_eq!(work.lent, kept);
    work.run_on(59, 22);
    Work::new(&half_empty()).run_on(120, 76);
    for allowance in [1, 7, 60, 119, u16::MAX] {
        assert_eq!(Work::new(&half_empty()).cost(allowance), 76);
    }
}

/// The words of a result record: R row by row, then Q transposed.
fn words(record: &[u8]) -> Vec<i32> {
    let words = record[1..].chunks_exact(4);
    let word = |bytes: &[u8]| i32::from_be_bytes(bytes.try_into().unwrap());
    words.map(word).collect()
}

/// Any job of finished work fetches the same record.
#[test]
fn a_diagonal_costs_nothing_and_comes_back_as_r() {
    let mut work = Work::new(&diagonal());
    work.run_on(120, 0);
    let mut whole = Lent::new();
    let factored = hubqr::whole(&diagonal(), &mut whole.area, &mut whole.buffer).unwrap();
    assert_eq!((factored.heard, factored.clamps), (0xff, NO_CLAMPS));
    for made in [0, 1, 119, 120] {
        let mut lent = work.lent.clone();
        hubqr::fetch(at(120, made), &lent.area, &mut lent.buffer).unwrap();
        assert_eq!(lent, whole);
    }
    let record = &whole.buffer[..RESULT_RECORD_BYTES];
    assert_eq!(record[0], KIND_RESULT);
    for (place, word) in words(record).into_iter().enumerate() {
        let due = match (place % 256 % 17, place / 256) {
            (0, 0) => 268427264,
            (0, _) => Q_ONE,
            _ => 0,
        };
        assert_eq!(word, due, "word {place}");
    }
}
