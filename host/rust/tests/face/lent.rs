//! What the tests share: records, and an area and a buffer with something behind what the calls use.
use hubqr::{Clamps, Job, AREA_WORDS, KIND_MATRIX, MATRIX_RECORD_BYTES, RESULT_RECORD_BYTES};

pub const NO_CLAMPS: Clamps = Clamps { r: 0, q: 0 };

/// The job at a turn number, with so many turns made.
pub const fn at(turn: u32, made: u32) -> Job {
    Job { turn, made }
}

/// Lent memory, longer than needed and filled with what no call writes.
#[derive(Clone, Debug, PartialEq)]
pub struct Lent {
    pub area: Vec<i32>,
    pub buffer: Vec<u8>,
}

impl Lent {
    pub fn new() -> Lent {
        Lent {
            area: vec![0x5a5a5a5a; AREA_WORDS + 3],
            buffer: vec![0xa5; RESULT_RECORD_BYTES + 3],
        }
    }

    /// Whether the words and bytes behind the used ones are as in a new one.
    pub fn tails_untouched(&self) -> bool {
        let new = Lent::new();
        self.area[AREA_WORDS..] == new.area[AREA_WORDS..]
            && self.buffer[RESULT_RECORD_BYTES..] == new.buffer[RESULT_RECORD_BYTES..]
    }
}

/// A matrix record whose element (row, column) is given as a pair of its parts.
pub fn matrix(element: impl Fn(usize, usize) -> (i16, i16)) -> Vec<u8> {
    let mut record = vec![KIND_MATRIX];
    for place in 0..64 {
        let (real, imaginary) = element(place / 8, place % 8);
        record.extend(real.to_be_bytes());
        record.extend(imaginary.to_be_bytes());
    }
    assert_eq!(record.len(), MATRIX_RECORD_BYTES);
    record
}

/// A matrix record with the same number for every part.
pub fn equal_parts(part: i16) -> Vec<u8> {
    matrix(|_, _| (part, part))
}

/// The heard byte of `mixed_matrix`, whose other antennas have no positive real part on the diagonal.
pub const MIXED_HEARD: u8 = 0b0101_0100;

/// A matrix without pattern, both ends of the 16-bit range among its parts.
pub fn mixed_matrix() -> Vec<u8> {
    matrix(|row, column| match (row, column) {
        (0, 0) => (i16::MIN, i16::MAX),
        _ => {
            let seed = (8 * row as u32 + column as u32).wrapping_mul(2654435761);
            ((seed >> 16) as i16, seed as i16)
        }
    })
}
