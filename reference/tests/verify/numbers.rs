//! Every refusal number with every set of failing tests of both records, so that the order of the
//! tests decides.

use std::collections::BTreeSet;

use reference::cases::Kind;
use reference::matrix::{Complex, Matrix, ANTENNAS};
use reference::random::Random;
use reference::records::{write_matrix, write_result};

use crate::board::written;
use crate::common::verify::Seen;
use crate::common::Case;
use crate::order::OtherAnswers;
use crate::pair::Pair;

/// Ways to pass a test, first, and to fail it. A record of no byte has no kind either.
const MATRIX_KINDS: [u8; 4] = [1, 0, 2, 0x81];
const MATRIX_LENGTHS: [usize; 6] = [257, 0, 1, 256, 258, 2049];
const RESULT_KINDS: [u8; 4] = [2, 0, 1, 0xFF];
const RESULT_LENGTHS: [usize; 6] = [2049, 0, 1, 257, 2048, 2050];

/// Elements that stand in place of others.
type Elements = &'static [(usize, usize, i16, i16)];

const LOUD: i16 = i16::MAX;

/// What is put into a matrix of zeros: such that it is heard, and such that it is not.
const HEARD: [Elements; 3] = [
    &[(3, 3, 17, 0)],
    &[(0, 0, 16, 0), (7, 7, 17, i16::MIN)],
    &[(5, 5, LOUD, LOUD), (0, 1, 16, 0)],
];
const UNHEARD: [Elements; 6] = [
    &[],
    &[(3, 3, 16, 0)],
    &[(0, 0, 16, LOUD), (7, 7, 16, i16::MIN)],
    &[(0, 1, LOUD, LOUD), (7, 0, LOUD, 0)],
    &[(2, 2, i16::MIN, 0), (4, 4, -17, 0)],
    &[(6, 6, 0, LOUD), (1, 2, 17, 17)],
];

/// A word of R in place of another.
type Word = (usize, usize, i32);

/// Such that R is accepted, and such that it is not.
const TRIANGLES: [Option<Word>; 4] = [
    None,
    Some((0, 15, i32::MIN)),
    Some((15, 15, -1)),
    Some((2, 2, 0)),
];
const NO_TRIANGLES: [Word; 6] = [
    (1, 0, 1),
    (15, 14, i32::MIN),
    (15, 0, -1),
    (0, 0, -1),
    (7, 7, i32::MIN),
    (14, 14, -1),
];

/// A record, and which of its three tests it fails.
struct Record {
    bytes: Vec<u8>,
    fails: [bool; 3],
}

impl Record {
    /// The records of all kinds and lengths that begin like this one, whose third test fails or not.
    fn cut(bytes: &[u8], third: bool, kinds: [u8; 4], lengths: [usize; 6]) -> Vec<Record> {
        let mut records = Vec::new();
        for kind in kinds {
            for length in lengths {
                let mut bytes = bytes.to_vec();
                bytes[0] = kind;
                bytes.resize(length, 0x5A);
                let fails = [kind != kinds[0] || length == 0, length != lengths[0], third];
                records.push(Record { bytes, fails });
            }
        }
        records
    }
}

fn matrix_with(elements: Elements) -> Matrix {
    Matrix::from_fn(|i, j| {
        let mut elements = elements.iter();
        let found = elements.find(|(row, column, ..)| (*row, *column) == (i, j));
        found.map_or(Complex::ZERO, |&(_, _, re, im)| Complex::new(re, im))
    })
}

fn matrices() -> Vec<Record> {
    let heard = HEARD.map(|elements| (elements, false));
    let unheard = UNHEARD.map(|elements| (elements, true));
    let all = heard.into_iter().chain(unheard);
    let records = all.map(|(elements, fails)| {
        let bytes = write_matrix(&matrix_with(elements));
        Record::cut(&bytes, fails, MATRIX_KINDS, MATRIX_LENGTHS)
    });
    records.flatten().collect()
}

/// What a board writes for each of the matrices that are heard, so that some get yes.
fn results() -> Vec<Record> {
    let words = TRIANGLES.map(|word| (word, false));
    let no_triangles = NO_TRIANGLES.map(|word| (Some(word), true));
    let all = words.into_iter().chain(no_triangles).zip((0..3).cycle());
    let records = all.map(|((word, fails), heard)| {
        let mut area = written(&matrix_with(HEARD[heard]));
        if let Some((i, j, word)) = word {
            area.set_word(i, j, word);
        }
        Record::cut(&write_result(&area), fails, RESULT_KINDS, RESULT_LENGTHS)
    });
    records.flatten().collect()
}

/// The first test that fails, those of the matrix first.
fn first(matrix: &Record, result: &Record) -> u8 {
    let tests = [1, 2, 4, 1, 2, 8].into_iter();
    let mut fails = matrix.fails.iter().chain(&result.fails).zip(tests);
    let failing = fails.find(|(fails, _)| **fails);
    failing.map_or(0, |(_, number)| number)
}

#[test]
fn a_refusal_answers_the_first_test_that_fails() {
    let (mut seen, mut others) = (Seen::default(), OtherAnswers::NONE);
    let (mut sets, mut number) = (BTreeSet::new(), 0);
    let results = results();
    for matrix in matrices() {
        for result in &results {
            let case = Case::new("sets of tests", 1431, number, &matrix.bytes);
            let reply = seen.verify(&case, &matrix.bytes, &result.bytes);
            let due = first(&matrix, result);
            assert_eq!(reply.number, due, "{case}");
            others.look(&matrix.bytes, &result.bytes, reply);
            sets.insert((matrix.fails, result.fails));
            number += 1;
        }
    }
    seen.print(&format!("{} sets of failing tests", sets.len()));
    others.print_and_require_all_rules("sets of tests");
    seen.assert_numbers(&[1, 2, 4, 8]);
    assert!(seen.yes > 0 && seen.no > 0);
    assert_eq!(sets.len(), 64, "not every set of tests failed");
}

/// Every real part on the diagonal around the limit, alone and beside others that are not heard.
#[test]
fn a_matrix_is_heard_above_16() {
    let (mut seen, mut number) = (Seen::default(), 0);
    for antenna in 0..ANTENNAS {
        for re in [i16::MIN, -17, -1, 0, 1, 15, 16, 17, 18, 255, 256, LOUD] {
            for rest in [0, 16, -100] {
                let mut random = Random::for_case(1432, number);
                let drawn = Kind::FullRange.matrix(&mut random);
                let matrix = drawn.with_diagonal(|_| rest).with_diagonal_at(antenna, re);
                let (matrix, result) = Pair::of_board(matrix).records();
                let case = Case::new("heard", 1432, number, &matrix);
                let reply = seen.verify(&case, &matrix, &result);
                let due = if re > 16 { (0, true) } else { (4, false) };
                assert_eq!((reply.number, reply.yes), due, "{case}");
                number += 1;
            }
        }
    }
    seen.print("Antennas around the limit of what is heard");
}
