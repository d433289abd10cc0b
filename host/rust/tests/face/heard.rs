//! Who is heard: Load and Whole look at the real parts of the diagonal and at nothing else, and refuse
//! a matrix in which no antenna is heard.
use crate::lent::{at, equal_parts, matrix, Lent, NO_CLAMPS};
use hubqr::Refusal::NoneHeard;
use hubqr::{ANTENNAS, HEARD_ABOVE};

/// The largest real part of an antenna that is not heard, and the smallest of one that is.
const QUIET: i16 = HEARD_ABOVE;
const LOUD: i16 = HEARD_ABOVE + 1;

/// Load and Whole answer this heard byte for a record. With 0, both refuse it and change nothing;
/// otherwise both accept it.
pub fn hears(record: &[u8], heard: u8) {
    let (mut loaded, mut worked) = (Lent::new(), Lent::new());
    let load = hubqr::load(record, &mut loaded.area);
    let whole = hubqr::whole(record, &mut worked.area, &mut worked.buffer);
    if heard == 0 {
        assert_eq!((load, whole), (Err(NoneHeard), Err(NoneHeard)));
        assert_eq!((loaded, worked), (Lent::new(), Lent::new()));
        return;
    }
    let (load, whole) = (load.unwrap(), whole.unwrap());
    assert_eq!((load.heard, load.job), (heard, at(0, 0)));
    assert_eq!((whole.heard, whole.clamps), (heard, NO_CLAMPS));
    assert!(loaded.tails_untouched() && worked.tails_untouched());
}

/// A matrix record of zeros with one element set.
fn single(row: usize, column: usize, real: i16, imaginary: i16) -> Vec<u8> {
    matrix(|i, j| match (i, j) == (row, column) {
        true => (real, imaginary),
        false => (0, 0),
    })
}

#[test]
fn an_antenna_is_heard_above_16() {
    assert_eq!(HEARD_ABOVE, 16);
}

#[test]
fn each_set_of_antennas_is_heard_whatever_the_other_parts() {
    for rest in [i16::MAX, 0, i16::MIN] {
        for heard in 0..=u8::MAX {
            let diagonal = |k: usize| if heard >> k & 1 == 1 { LOUD } else { QUIET };
            let record = matrix(|i, j| match i == j {
                true => (diagonal(i), rest),
                false => (rest, rest),
            });
            hears(&record, heard);
        }
    }
}

/// Among the numbers are some whose high or low byte is 0 or above 16 by itself, and negative ones.
#[test]
fn one_real_part_on_the_diagonal_is_enough() {
    for k in 0..ANTENNAS {
        for real in [QUIET, 15, 2, 1, 0, -1, -16, -17, -239, -256, i16::MIN] {
            hears(&single(k, k, real, 0), 0);
        }
        for real in [LOUD, 18, 32, 127, 128, 255, 256, 257, 272, 4096, i16::MAX] {
            hears(&single(k, k, real, 0), 1 << k);
        }
    }
}

#[test]
fn other_parts_are_not_heard_however_large() {
    for (row, column) in (0..64).map(|place| (place / 8, place % 8)) {
        hears(&single(row, column, 1, 0), 0);
        let real = if row == column { QUIET } else { i16::MAX };
        hears(&single(row, column, real, i16::MAX), 0);
    }
}

#[test]
fn equal_parts_are_heard_by_all_or_none() {
    for part in [i16::MIN, -17, -1, 0, 1, 2, QUIET] {
        hears(&equal_parts(part), 0);
    }
    for part in [LOUD, i16::MAX] {
        hears(&equal_parts(part), 0xff);
    }
}
