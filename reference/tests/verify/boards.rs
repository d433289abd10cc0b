//! What a board writes that factors by another method, and what it writes when it keeps fewer bits.

use std::ops::RangeInclusive;

use reference::area::WorkArea;
use reference::cases::{edges, Kind};
use reference::matrix::{Matrix, REAL_SIZE};
use reference::random::Random;

use crate::board::{real, written, Factors};
use crate::pair::{Family, Pair};
use crate::rules::{Compared, Rule};

/// Matrices of each kind.
const MATRICES: usize = 40;

/// How many low bits of each word are lost.
const LOST: RangeInclusive<u32> = 8..=16;

/// Random matrices of every kind, and those at the edges of the range.
fn matrices(seed: u64) -> impl Iterator<Item = Matrix> {
    let kinds = Kind::ALL.into_iter().flat_map(|kind| [kind; MATRICES]);
    let drawn = kinds.zip(0..);
    let drawn = drawn.map(move |(kind, number)| kind.matrix(&mut Random::for_case(seed, number)));
    drawn.chain(edges())
}

/// The words with zeros for their low bits. That rounds down, so that no diagonal word gets negative.
fn without_low_bits(area: &WorkArea, bits: u32) -> WorkArea {
    WorkArea::from_words(&area.to_words().map(|word| word >> bits << bits))
}

/// With the last row of R and the last column of Q as the method leaves them, and negated.
#[test]
fn rounded_results_of_another_method_get_yes() {
    let mut compared = Compared::new(Rule::OF_RIGHT_RESULTS);
    for (matrix, number) in matrices(1321).zip(0..) {
        let mut factors = Factors::of(&real(&matrix));
        for _ in 0..2 {
            let (matrix, area) = (matrix.clone(), factors.rounded());
            let pair = Pair { matrix, area };
            let reply = compared.verify("another method", 1321, number, &pair);
            assert!(reply.yes, "matrix {number}: {reply:?}");
            factors.negate(REAL_SIZE - 1);
        }
    }
    compared.print_and_require_all_rules("Rounded results of another method");
}

#[test]
fn results_with_fewer_bits_get_yes_or_no() {
    let mut compared = Compared::new([
        Rule::Bound(Family::Product, 43),
        Rule::Bound(Family::Product, 45),
        Rule::Bound(Family::Rows, 43),
        Rule::Bound(Family::Rows, 45),
        Rule::OnlyBelow(Family::Rows),
        Rule::OnlyAbove(Family::Rows),
        Rule::Alone(Family::Product),
        Rule::Alone(Family::Rows),
    ]);
    let mut answers = Vec::new();
    for bits in LOST {
        let before = compared.seen.yes;
        for (matrix, number) in matrices(1322).zip(0..) {
            let area = without_low_bits(&written(&matrix), bits);
            let pair = Pair { matrix, area };
            compared.verify("fewer bits", 1322, number, &pair);
        }
        answers.push((bits, compared.seen.yes - before));
    }
    compared.print_and_require_all_rules("Results with fewer bits");
    println!("low bits lost and how many got yes: {answers:?}");
    let all = matrices(1322).count() as u64;
    assert_eq!(answers.first(), Some(&(8, all)));
    let mixed = |yes: &u64| (all / 10..all * 9 / 10).contains(yes);
    assert!(answers.iter().any(|(_, yes)| mixed(yes)));
    assert!(answers.last().is_some_and(|(_, yes)| *yes < all / 10));
}
