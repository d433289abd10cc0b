//! The bench values of the specification, looked up in what the engine answers.

mod common;

use common::{Both, Case};
use reference::area::{WorkArea, AREA_WORDS, COLUMNS, ROWS};
use reference::clamps::Clamps;
use reference::job::Job;
use reference::matrix::{Complex, Matrix};
use reference::random::Random;
use reference::records::write_matrix;
use reference::schedule;

fn both(test: &'static str, record: &[u8]) -> Both {
    Both::new(Case::new(test, 401, 0, record))
}

fn filled_with(element: Complex) -> [u8; 257] {
    write_matrix(&Matrix::from_fn(|_, _| element))
}

/// The area that Load makes of a matrix with the same element everywhere, but for the last antenna,
/// which is heard.
fn loaded(element: Complex) -> WorkArea {
    let matrix = Matrix::from_fn(|_, _| element).with_diagonal_at(7, 17);
    let record = write_matrix(&matrix);
    let mut both = both("loading", &record);
    assert_eq!(both.load(&record).number, 0);
    both.area()
}

#[test]
fn m1_to_m3_loaded_words() {
    assert_eq!(loaded(Complex::new(1, 0)).r(0, 0), 8192);
    assert_eq!(loaded(Complex::new(-32768, 0)).r(0, 0), -268435456);
    assert_eq!(loaded(Complex::new(0, -32768)).r(0, 8), 268435456);
}

/// Each turn is seen by what it changes: two rows, from its column on. M4 to M8 are among them.
#[test]
fn every_turn_changes_its_rows_from_its_column_on() {
    let mut random = Random::new(402);
    let words: [i32; AREA_WORDS] = std::array::from_fn(|_| random.word() >> 3);
    for (number, turn) in schedule::turns().iter().enumerate() {
        let mut both = both("turns", &[]);
        both.fill_area(&words);
        let reply = both.run(Job::new(number as u32, 0), 1);
        assert_eq!(reply.job.made, 1);
        let after = both.area();
        for row in 0..ROWS {
            for column in 0..COLUMNS {
                let turned = [turn.upper, turn.lower].contains(&row) && column >= turn.column;
                let changed = after.word(row, column) != words[COLUMNS * row + column];
                assert!(turned || !changed, "turn {number}, row {row}");
                assert!(!turned || changed, "turn {number}, row {row}");
            }
        }
        assert_eq!(after.word(turn.lower, turn.column), 0);
    }
}

/// M10 is clear and stays as it is, so that M12 alone tells 28 micro-steps from 27 or 29. The last
/// pair is scaled from an odd multiple of 2^28, where rounding up and down differ.
#[test]
fn m10_to_m12_leading_pairs() {
    let rounded_up = (-163_008_213, 0, 163_008_219, 1);
    for (upper, lower, outcome, made) in [(1, 0, 1, 0), (0, 1, 1, 1), (-1, 0, 17, 1), rounded_up] {
        let mut words = [0; AREA_WORDS];
        words[14 * COLUMNS + 14] = upper;
        words[15 * COLUMNS + 14] = lower;
        let mut both = both("leading pairs", &[]);
        both.fill_area(&words);
        let reply = both.run(Job::new(119, 7), 1);
        assert_eq!((reply.job, reply.count), (Job::new(120, 7 + made), 1));
        assert_eq!(reply.clamps, Clamps::NONE);
        assert_eq!(both.area().word(14, 14), outcome);
        assert_eq!(both.area().word(15, 14), 0);
    }
}

#[test]
fn records_of_257_and_258_bytes_and_areas_of_512_and_513_words() {
    let record = filled_with(Complex::new(30, -4));
    let mut long = record.to_vec();
    long.push(0);
    for words in [512, 513] {
        let mut both = both("lengths", &record);
        both.lend(words, 2049);
        assert_eq!(both.load(&record).number, 0);
        assert_eq!(both.load(&long).number, 2);
        assert_eq!(both.whole(&long).number, 2);
        assert_eq!(both.whole(&record).number, 0);
    }
}

#[test]
fn allowances_around_the_number_of_turns() {
    let record = filled_with(Complex::new(100, -77));
    for (allowance, count) in [(119, 119), (120, 120), (121, 120)] {
        let mut both = both("allowances", &record);
        let loaded = both.load(&record).job;
        assert_eq!(loaded, Job::new(0, 0));
        let reply = both.run(loaded, allowance);
        assert_eq!((reply.count, reply.job.turn), (count, count));
        assert_eq!(reply.clamps, Clamps::NONE);
        let accepted = both.fetch(reply.job).number == 0;
        assert_eq!(accepted, count == 120);
        let rest = both.run(reply.job, allowance);
        assert_eq!((rest.number, rest.count), (0, 120 - count));
        assert_eq!(rest.job.turn, 120);
    }
}

#[test]
fn a_single_element_1_and_all_parts_at_the_lowest_are_refused() {
    let single = Matrix::from_fn(|i, j| Complex::new(i16::from(i + j == 0), 0));
    let lowest = Matrix::from_fn(|_, _| Complex::new(-32768, -32768));
    for matrix in [single, lowest] {
        refused("not heard", &write_matrix(&matrix));
    }
}

#[test]
fn the_hub_that_heard_nothing_is_refused() {
    refused("silence", &filled_with(Complex::ZERO));
}

/// Load and Whole answer number 4 and nothing else.
fn refused(test: &'static str, record: &[u8]) {
    let mut both = both(test, record);
    let load = both.load(record);
    assert_eq!((load.number, load.heard, load.job), (4, 0, Job::new(0, 0)));
    let whole = both.whole(record);
    assert_eq!((whole.number, whole.heard), (4, 0));
    assert_eq!(whole.clamps, Clamps::NONE);
}
