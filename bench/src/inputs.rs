//! What the contenders are given: fresh random input for every batch, made again from its number.

use std::cmp::Ordering;

use hubqr::ffi::Snapshot;
use hubqr::Sample;
use reference::cases::Kind;
use reference::matrix::{Complex, Matrix};
use reference::random::Random;
use reference::records::write_matrix;

use crate::contenders::{Area, Record};

/// A matrix record with any parts. An antenna is heard in it, so that Load and Whole accept it.
pub fn record(random: &mut Random) -> Record {
    write_matrix(&Kind::FullRange.matrix(random))
}

/// The same with nothing in the columns of antennas 4 to 7.
pub fn half_empty(random: &mut Random) -> Record {
    loop {
        let full = Kind::FullRange.matrix(random);
        let half = Matrix::from_fn(|i, j| match j {
            0..4 => full.element(i, j),
            _ => Complex::ZERO,
        });
        if !half.none_heard() {
            return write_matrix(&half);
        }
    }
}

/// The record of the matrix with (32767, 0) on its diagonal and nothing elsewhere.
pub fn diagonal() -> Record {
    write_matrix(&Matrix::from_fn(|i, j| match i == j {
        true => Complex::new(i16::MAX, 0),
        false => Complex::ZERO,
    }))
}

/// The record of a matrix with positive real parts on the diagonal, any real parts above it and nothing
/// elsewhere. What is loaded from it is a finished R, so that Fetch accepts it without a turn.
pub fn finished(random: &mut Random) -> Record {
    write_matrix(&Matrix::from_fn(|i, j| match i.cmp(&j) {
        Ordering::Less => Complex::new(random.part(), 0),
        Ordering::Equal => Complex::new(random.between(17, i16::MAX.into()) as i16, 0),
        Ordering::Greater => Complex::ZERO,
    }))
}

/// An area of any words, which no Load could have filled.
pub fn words(random: &mut Random) -> Area {
    std::array::from_fn(|_| random.word())
}

/// A snapshot with any parts.
pub fn snapshot(random: &mut Random) -> Snapshot {
    snapshot_of(|| random.part())
}

/// A snapshot of parts that are asked for one after the other.
pub fn snapshot_of(mut part: impl FnMut() -> i16) -> Snapshot {
    let sample = |_| Sample {
        re: part(),
        im: part(),
    };
    Snapshot {
        samples: std::array::from_fn(sample),
    }
}
