//! Sums that 63 or 64 bits cut to what they should be.

use reference::accuracy::BOUND;
use reference::area::{WorkArea, AREA_WORDS};
use reference::matrix::{Complex, Matrix, ANTENNAS, REAL_SIZE};

use crate::pair::{places, Family, Pair};
use crate::rules::{says_yes, Compared, Rule};

/// A real and an imaginary part in steps of 2^28. The squares of a row of Q with eight such elements
/// add up to 2^60 and a multiple of a power of two.
#[derive(Debug, Clone, Copy)]
struct Element {
    re: i16,
    im: i16,
    /// The power.
    bits: u32,
}

/// Rows of length one.
const EXACT: Element = Element::new(1, 1, 63);

/// Rows that are too long: by 2^62, by 2^63, by 2^63 and 2^64, twice by 2^64, and by three times 2^64.
const CUT: [Element; 6] = [
    Element::new(1, 3, 62),
    Element::new(3, 3, 63),
    Element::new(5, 5, 63),
    Element::new(3, 5, 64),
    Element::new(5, 3, 64),
    Element::new(7, 7, 64),
];

impl Element {
    const fn new(re: i16, im: i16, bits: u32) -> Self {
        Element { re, im, bits }
    }

    /// The four ways to choose the signs.
    fn signs(self) -> [Element; 4] {
        [(1, 1), (1, -1), (-1, 1), (-1, -1)].map(|(re, im)| Element {
            re: re * self.re,
            im: im * self.im,
            ..self
        })
    }

    /// The squares of a row of Q, divided by 2^60.
    fn squares(self) -> i32 {
        let square = |part: i16| i32::from(part) * i32::from(part);
        (square(self.re) + square(self.im)) / 2
    }

    /// A Walsh matrix times this element and a whole number. Q is the Walsh matrix times the element
    /// alone, so that any two rows are at right angles; R is the number on the diagonal.
    fn pair(self, times: i16) -> Pair {
        let matrix = Matrix::from_fn(|i, j| {
            let sign = if (i & j).count_ones() % 2 == 0 { 1 } else { -1 };
            Complex::new(sign * self.re * times, sign * self.im * times)
        });
        let (input, area) = (matrix.to_real(), WorkArea::from_words(&[0; AREA_WORDS]));
        let mut pair = Pair { matrix, area };
        for (i, k) in places() {
            pair.set_q(i, k, (input[i][k] / i32::from(times)) << 28);
        }
        (0..REAL_SIZE).for_each(|k| pair.set_r(k, k, i32::from(times) << 15));
        pair
    }
}

/// Takes the last antenna out of the matrix and its factors, so that column 15 of R is free.
fn without_last(mut pair: Pair) -> Pair {
    let last = ANTENNAS - 1;
    pair.matrix = Matrix::from_fn(|i, j| match j {
        _ if j == last => Complex::ZERO,
        _ => pair.matrix.element(i, j),
    });
    pair.set_r(last, last, 0);
    pair.set_r(REAL_SIZE - 1, REAL_SIZE - 1, 0);
    pair
}

/// Makes column 15 of R the multiple of row i of Q for which entry (i, 15) of Q times R is a power of
/// two, or its negative, but for what rounding leaves.
fn with_entry(mut pair: Pair, element: Element, i: usize, size: f64) -> Pair {
    let share = size / 60_f64.exp2() / f64::from(element.squares());
    for k in 0..REAL_SIZE {
        let word = share * f64::from(pair.area.q(i, k));
        pair.set_r(k, REAL_SIZE - 1, word.round() as i32);
    }
    pair
}

/// Rows of Q whose squares add up to 2^60 and 2^64 are no rows of length one, though 64 bits say so.
#[test]
fn rows_of_a_length_that_is_cut() {
    let mut compared = Compared::new([
        Rule::Modulo(32),
        Rule::Modulo(62),
        Rule::Modulo(63),
        Rule::Modulo(64),
        Rule::ModuloIn(Family::Rows, 63),
        Rule::ModuloIn(Family::Rows, 64),
    ]);
    let mut number = 0;
    for element in CUT.into_iter().chain([EXACT]).flat_map(Element::signs) {
        for times in [17, 1_000, 4_681] {
            let pair = element.pair(times);
            assert_eq!(pair.largest(Family::Product), 0, "{element:?}");
            let off = (i128::from(element.squares()) - 1) << 60;
            assert_eq!(pair.largest(Family::Rows), off, "{element:?}");
            let reply = compared.verify("rows that are cut", 0, number, &pair);
            assert_eq!((reply.number, reply.yes), (0, off == 0), "{element:?}");
            let cut = says_yes(Rule::Modulo(element.bits), &pair);
            assert!(cut, "{element:?} modulo 2^{}", element.bits);
            number += 1;
        }
    }
    compared.print_and_require_all_rules("Rows of Q of a length that is cut");
}

/// The same for an entry of Q times R, at each row and of either sign. With rows of length one it can
/// reach 2^63; for 2^64 the rows have to be longer, too.
#[test]
fn entries_of_the_product_that_are_cut() {
    let mut compared = Compared::new([
        Rule::Modulo(62),
        Rule::Modulo(63),
        Rule::Modulo(64),
        Rule::ModuloIn(Family::Product, 63),
    ]);
    let mut number = 0;
    for element in CUT.into_iter().chain([EXACT]).flat_map(Element::signs) {
        for i in 0..REAL_SIZE {
            for sign in [1.0, -1.0] {
                let pair = without_last(element.pair(100));
                let size = sign * f64::from(element.bits).exp2();
                let pair = with_entry(pair, element, i, size);
                let off = pair.differences(Family::Product)[i][REAL_SIZE - 1];
                assert!((off - size as i128).abs() < BOUND, "{element:?}: {off}");
                let reply = compared.verify("entries that are cut", 0, number, &pair);
                assert_eq!((reply.number, reply.yes), (0, false), "{element:?}");
                let cut = says_yes(Rule::Modulo(element.bits), &pair);
                assert!(cut, "{element:?} modulo 2^{}", element.bits);
                number += 1;
            }
        }
    }
    compared.print_and_require_all_rules("Entries of Q times R that are cut");
}

/// A matrix with nothing but its last column. Rows 0 to 11 of Q have the lowest word in the last four
/// columns, and rows 12 to 15 in the first twelve, so that any two of the former have four products of
/// 2^62, and any two of the latter twelve. All else in Q is 2^30, its negative or 0, and R is such
/// that Q times R is exact.
fn with_lowest_words(times: i16) -> Pair {
    let matrix = Matrix::from_fn(|i, j| match (i, j) {
        (7, 7) => Complex::new(193 * times, -386 * times),
        (4..7, 7) => Complex::new(0, -386 * times),
        _ => Complex::ZERO,
    });
    let area = WorkArea::from_words(&[0; AREA_WORDS]);
    let mut pair = Pair { matrix, area };
    for (i, k) in places() {
        let word = match (i < 12, k < 12) {
            (true, true) if i == k => 1 << 30,
            (false, false) if i == k => -(1 << 30),
            (true, false) | (false, true) => i32::MIN,
            _ => 0,
        };
        pair.set_q(i, k, word);
    }
    let scaled = |steps: i32| (steps * i32::from(times)) << 13;
    pair.set_r(7, 7, scaled(193));
    for k in 0..REAL_SIZE {
        let steps = match k {
            4..8 => 256,
            12..15 => 32,
            15 => -161,
            _ => -130,
        };
        pair.set_r(k, REAL_SIZE - 1, scaled(steps));
    }
    pair
}

/// Sums of two different rows, too, are 2^64 off, or three times as much.
#[test]
fn products_of_two_lowest_words_that_are_cut() {
    let mut compared = Compared::new([Rule::Modulo(64), Rule::ModuloIn(Family::Rows, 64)]);
    for times in 1..=84 {
        let pair = with_lowest_words(times);
        assert_eq!(pair.largest(Family::Product), 0);
        let rows = pair.differences(Family::Rows);
        for (i, j) in places() {
            let times = match (i < 12, j < 12) {
                (true, true) => 1,
                (false, false) => 3,
                _ => 0,
            };
            assert_eq!(rows[i][j], times << 64, "({i}, {j})");
        }
        let reply = compared.verify("lowest words", 0, times as u64, &pair);
        assert_eq!((reply.number, reply.yes), (0, false));
        assert!(says_yes(Rule::Modulo(64), &pair));
    }
    compared.print_and_require_all_rules("Products of two lowest words that are cut");
}
