//! An entry of Q times R that is off by the bound or one more, alone.

use reference::area::ONE;
use reference::matrix::{Complex, Matrix, ANTENNAS};

use super::Off;
use crate::board::{real, Factors};
use crate::pair::Pair;

/// Every amount can be reached exactly at every pair. Each word of R counts 2^30 in its own row where Q
/// is one, and the one more is 1 times 1: a word of Q off the diagonal and a word of R. Column 0 of R
/// has a single word, so that the entry is one product and has to be factored.
pub fn pair(i: usize, j: usize, off: Off) -> Pair {
    match j {
        0 => by_one_product(i, off),
        _ if i <= j => by_a_word_of_r(i, j, off),
        _ => by_words_of_q(i, j, off),
    }
}

/// 2^14 on or above the diagonal of R.
fn by_a_word_of_r(i: usize, j: usize, off: Off) -> Pair {
    let mut pair = Pair::diagonal(|k| if k == i % ANTENNAS { 100 } else { 0 });
    pair.add_to_r(i, j, off.sign << 14);
    if off.beyond {
        let k = if i == 0 { 1 } else { 0 };
        pair.set_q(i, k, off.sign);
        pair.add_to_r(k, j, 1);
    }
    pair
}

/// Under the diagonal R has zeros, so that row i of Q leans toward row j, which has 2^27 in R, by 2^17.
/// Row j leans the other way by nearly as much, which keeps the two at right angles.
fn by_words_of_q(i: usize, j: usize, off: Off) -> Pair {
    let mut pair = Pair::diagonal(|k| if k == j % ANTENNAS { 1 << 14 } else { 0 });
    pair.set_q(i, j, off.sign << 17);
    pair.set_q(j, i, -off.sign * ((1 << 17) - (1 << 13)));
    if off.beyond {
        pair.set_q(i, 0, off.sign);
        pair.add_to_r(0, j, 1);
    }
    pair
}

/// The part of the matrix in row i of column 0. The entry is two steps more, and one beyond.
const PART: i16 = 17;

/// A word of Q and one of R whose product is 19 times 2^43, and two of which it is one more.
const AT: (i32, i32) = (1 << 22, 19 << 21);
const BEYOND: (i32, i32) = (3_821_889, 43_728_577);

/// The board factors a matrix whose column 0 has the direction and the length that the two words say,
/// and is handed over with the one of whole steps next to it.
fn by_one_product(i: usize, off: Off) -> Pair {
    let (q, r) = if off.beyond { BEYOND } else { AT };
    let (length, share) = (f64::from(r) / 8192.0, f64::from(q) / f64::from(ONE));
    let leaning = f64::from(off.sign) * length * share;
    let rest = length * (1.0 - share * share).sqrt();

    let other = if i == 0 { 1 } else { 0 };
    let matrix = first_column((i, off.sign as i16 * PART), (other, rest.round() as i16));
    let mut steps = real(&matrix);
    (steps[i][0], steps[other][0]) = (leaning, rest);
    let area = Factors::of(&steps).rounded();
    Pair { matrix, area }
}

/// Two parts of column 0 of the matrix made real, and 100 for each antenna but the first.
fn first_column(a: (usize, i16), b: (usize, i16)) -> Matrix {
    let part = |row| match row {
        _ if row == a.0 => a.1,
        _ if row == b.0 => b.1,
        _ => 0,
    };
    let nothing = Matrix::from_fn(|i, j| match j {
        0 => Complex::new(part(i), part(i + ANTENNAS)),
        _ => Complex::ZERO,
    });
    (1..ANTENNAS).fold(nothing, |matrix, k| matrix.with_diagonal_at(k, 100))
}
