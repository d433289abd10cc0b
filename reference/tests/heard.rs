//! Which antennas are heard: the real parts on the diagonal around the limit, at every antenna, and
//! whatever stands elsewhere.

mod common;

use common::heard::Heard;
use common::{Both, Case};
use reference::cases::{unheard_edges, Kind};
use reference::matrix::{Complex, Matrix, ANTENNAS};
use reference::random::Random;
use reference::records::write_matrix;

const LOWEST: i16 = i16::MIN;
const HIGHEST: i16 = i16::MAX;

/// Real parts on the diagonal, and whether an antenna is heard with them.
const PARTS: [(i16, bool); 13] = [
    (LOWEST, false),
    (-18, false),
    (-17, false),
    (-16, false),
    (-1, false),
    (0, false),
    (1, false),
    (2, false),
    (15, false),
    (16, false),
    (17, true),
    (18, true),
    (HIGHEST, true),
];

fn everywhere(re: i16, im: i16) -> Matrix {
    Matrix::from_fn(|_, _| Complex::new(re, im))
}

/// Matrices with zeros, ends of the range and anything, and the byte that is heard of them.
fn backgrounds(random: &mut Random) -> Vec<(Matrix, u8)> {
    let mut end = || random.choose(&[LOWEST, HIGHEST]);
    let ends = Matrix::from_fn(|_, _| Complex::new(end(), end()));
    let any = Kind::FullRange.matrix(random);
    vec![
        (everywhere(0, 0), 0),
        (everywhere(LOWEST, LOWEST), 0),
        (everywhere(LOWEST, HIGHEST), 0),
        (everywhere(0, HIGHEST), 0),
        (everywhere(HIGHEST, HIGHEST), 255),
        (everywhere(HIGHEST, LOWEST).with_diagonal(|_| 16), 0),
        (everywhere(HIGHEST, HIGHEST).with_diagonal(|_| LOWEST), 0),
        (ends.clone().with_diagonal(|_| LOWEST), 0),
        (ends.with_diagonal(|_| HIGHEST), 255),
        (any.with_diagonal(|_| -17), 0),
    ]
}

#[test]
fn each_antenna_is_heard_above_16_whatever_stands_elsewhere() {
    let (mut seen, mut number) = (Heard::default(), 0);
    for antenna in 0..ANTENNAS {
        for (part, is_heard) in PARTS {
            for (background, others) in backgrounds(&mut Random::for_case(801, number)) {
                let record = write_matrix(&background.with_diagonal_at(antenna, part));
                let (bit, others) = (1 << antenna, others & !(1 << antenna));
                let heard = if is_heard { others | bit } else { others };
                let case = Case::new("each antenna", 801, number, &record);
                seen.require(&case, &record, heard);
                number += 1;
            }
        }
    }
    seen.print("Each antenna around the limit");
}

#[test]
fn every_heard_byte_is_answered() {
    let (mut seen, mut number) = (Heard::default(), 0);
    for byte in 0..=255 {
        let re = |k: usize| if byte >> k & 1 == 1 { 17 } else { 16 };
        for (background, _) in backgrounds(&mut Random::for_case(802, number)) {
            let record = write_matrix(&background.with_diagonal(re));
            let case = Case::new("every heard byte", 802, number, &record);
            seen.require(&case, &record, byte);
            number += 1;
        }
    }
    seen.print("Every heard byte");
}

/// A matrix of any kind with real parts from -20 to 40 on the diagonal, and the byte that is heard
/// of it. Of eight such parts one is nearly always heard, so some antennas only hum.
fn around_the_limit(random: &mut Random) -> (Matrix, u8) {
    let humming = random.byte() | random.byte();
    let parts: [i64; ANTENNAS] = std::array::from_fn(|k| match humming >> k & 1 {
        1 => random.between(-20, 16),
        _ => random.between(-20, 40),
    });
    let matrix = random.choose(&Kind::ALL).matrix(random);
    let heard = (0..ANTENNAS).filter(|&k| parts[k] > 16);
    let heard = heard.map(|k| 1 << k).sum();
    (matrix.with_diagonal(|k| parts[k] as i16), heard)
}

#[test]
fn diagonals_around_the_limit_agree() {
    let mut seen = Heard::default();
    for number in 0..6000 {
        let (matrix, heard) = around_the_limit(&mut Random::for_case(803, number));
        let record = write_matrix(&matrix);
        let case = Case::new("around the limit", 803, number, &record);
        seen.require(&case, &record, heard);
    }
    seen.print("Diagonals around the limit");
    assert!(seen.accepted >= 2000 && seen.refused >= 2000);
}

#[test]
fn edges_that_no_antenna_is_heard_with_are_refused() {
    let mut seen = Heard::default();
    for (matrix, number) in unheard_edges().iter().zip(0..) {
        let record = write_matrix(matrix);
        let case = Case::new("unheard edges", 804, number, &record);
        seen.require(&case, &record, 0);
    }
    seen.print("Edges that no antenna is heard with");
}

/// Every antenna is given every real part there is: the first antenna all of them in order, each
/// other one the same some steps behind.
#[test]
fn every_real_part_at_every_antenna() {
    let mut both = Both::new(Case::of_words("every real part", 805, 0));
    let mut refused = 0;
    for first in LOWEST..=HIGHEST {
        let part = |k: usize| first.wrapping_sub(3 * k as i16);
        let record = write_matrix(&everywhere(0, -1).with_diagonal(part));
        let heard = (0..ANTENNAS).filter(|&k| part(k) > 16);
        let heard = heard.map(|k| 1 << k).sum();
        let reply = both.load(&record);
        let number = if heard == 0 { 4 } else { 0 };
        let same = (reply.number, reply.heard) == (number, heard);
        both.require(same, &format!("first real part {first}: {reply:?}"));
        refused += u32::from(number == 4);
    }
    println!("\nEvery real part at every antenna: {refused} of 65536 matrices refused");
    assert!(refused > 32_000);
}
