//! Snapshots so quiet that the diagonal of their matrix lies around the limit. Each such matrix is
//! written; an antenna is heard in it from 17 on, and without one Load refuses it.

use reference::covariance::Snapshot;
use reference::matrix::{Complex, ANTENNAS};
use reference::random::Random;
use reference::records::{parse_matrix, MATRIX_RECORD};

use crate::common::heard::{heard_in, Heard};
use crate::common::sums::{BothSums, Seen};
use crate::common::Case;

/// The squares of its parts add up to 17 times 65,536.
const JUST_HEARD: Complex = Complex::new(1024, 256);

/// Quieter by a step of one part.
const JUST_NOT: Complex = Complex::new(1024, 255);

/// The record that both sides write of a list of snapshots.
fn record_of(
    list: impl IntoIterator<Item = Snapshot>,
    case: Case,
    seen: &mut Seen,
) -> [u8; MATRIX_RECORD] {
    let mut both = BothSums::none(case, seen);
    for snapshot in list {
        let number = both.add(&snapshot);
        both.require(number == 0, "a snapshot was refused");
    }
    let number = both.write(MATRIX_RECORD);
    both.require(number == 0, "a quiet record was not written");
    *both.record()
}

/// So many snapshots in which one antenna has a sample other than 0, the last one of its own.
fn alone(antenna: usize, count: usize, last: Complex) -> impl Iterator<Item = Snapshot> {
    (1..=count).map(move |place| {
        let mut snapshot = [Complex::ZERO; ANTENNAS];
        snapshot[antenna] = if place == count { last } else { JUST_HEARD };
        snapshot
    })
}

#[test]
fn a_mean_of_17_is_heard_and_the_next_smaller_is_not() {
    let (mut seen, mut heard, mut number) = (Seen::default(), Heard::default(), 0);
    for antenna in 0..ANTENNAS {
        for count in [1, 2, 3, 100, 4_096] {
            for (last, part) in [(JUST_HEARD, 17), (JUST_NOT, 16)] {
                let case = Case::of_words("means of 17", 751, number);
                let record = record_of(alone(antenna, count, last), case, &mut seen);
                let matrix = parse_matrix(&record).expect("a matrix record was written");
                assert_eq!(matrix.element(antenna, antenna), Complex::new(part, 0));
                let byte = if part == 17 { 1 << antenna } else { 0 };
                let case = Case::new("means of 17", 751, number, &record);
                heard.require(&case, &record, byte);
                number += 1;
            }
        }
    }
    seen.print("One quiet antenna");
    heard.print("One quiet antenna");
    assert_eq!((heard.accepted, heard.refused), (40, 40));
}

/// Snapshots of eight antennas, each with samples up to a limit of its own: nothing, the one or two
/// that a loose plug leaves, or around the limit.
fn quiet_list(random: &mut Random) -> Vec<Snapshot> {
    let humming = random.byte() | random.byte();
    let limits: [i64; ANTENNAS] = std::array::from_fn(|k| match humming >> k & 1 {
        1 => random.choose(&[0, 250, 400]),
        _ => random.between(900, 1_600),
    });
    let count = random.between(1, 12);
    let snapshots = (0..count).map(|_| {
        limits.map(|limit| {
            let mut part = || random.between(-limit, limit) as i16;
            Complex::new(part(), part())
        })
    });
    snapshots.collect()
}

#[test]
fn quiet_snapshots_are_written_and_heard_by_their_diagonal() {
    let (mut seen, mut heard) = (Seen::default(), Heard::default());
    for number in 0..1_000 {
        let list = quiet_list(&mut Random::for_case(752, number));
        let case = Case::of_words("quiet snapshots", 753, number);
        let record = record_of(list, case, &mut seen);
        let case = Case::new("quiet snapshots", 753, number, &record);
        heard.require(&case, &record, heard_in(&record));
    }
    seen.print("Quiet snapshots");
    heard.print("Quiet snapshots");
    assert!(heard.accepted >= 300 && heard.refused >= 300);
}
