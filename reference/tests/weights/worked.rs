//! The results of worked matrices of every kind.

use reference::cases::Kind;
use reference::matrix::Matrix;
use reference::records::write_matrix;

use crate::common::weights::any_targets;
use crate::common::{Both, Case};
use crate::rules::Compared;

/// Matrices of each kind, and targets for each.
const MATRICES: u64 = 80;
const TARGETS: u64 = 8;

/// The archive's result record of a matrix, which is the reference's.
pub fn fetched(matrix: &Matrix, case: Case) -> Vec<u8> {
    let mut both = Both::new(case);
    let reply = both.whole(&write_matrix(matrix));
    both.require(reply.number == 0, "a matrix of some kind was refused");
    both.fetched()
}

/// A matrix that leaves 0 on R's diagonal is refused with 11.
#[test]
fn worked_matrices_of_every_kind_agree() {
    let mut compared = Compared::NONE;
    println!();
    for (kind, seed) in Kind::ALL.into_iter().zip(901..) {
        let before = compared.seen.accepted;
        for number in 0..MATRICES {
            let case = Case::of_words("worked matrices", seed, number);
            let mut random = case.random();
            let record = fetched(&kind.matrix(&mut random), case);
            let case = Case::new("worked matrices", seed, number, &record);
            for _ in 0..TARGETS {
                let reply = compared.weights(&case, &record, &any_targets(&mut random));
                assert!([0, 11].contains(&reply.number), "{case}");
            }
        }
        let solved = compared.seen.accepted - before;
        println!(
            "{:18} {solved} of {} solved",
            kind.name(),
            MATRICES * TARGETS
        );
    }
    compared.print_and_require_all_rules("Worked matrices");
}
