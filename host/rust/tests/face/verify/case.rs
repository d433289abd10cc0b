//! A matrix and factors of it, to be changed word by word.
use crate::lent::matrix;
use hubqr::{Refusal, ANTENNAS, KIND_RESULT, Q_ONE, R_ONE};

/// Rows and columns of the input made real, of R and of Q.
pub const SIZE: usize = 2 * ANTENNAS;

/// One step of the 16-bit input in the words of R.
pub const STEP: i32 = R_ONE >> 15;

pub type Words = [[i32; SIZE]; SIZE];

#[derive(Clone)]
pub struct Case {
    /// The real and the imaginary parts.
    elements: [[[i16; 2]; ANTENNAS]; ANTENNAS],
    pub r: Words,
    pub q: Words,
}

impl Case {
    /// A matrix that has 17 on the diagonal for one antenna and is empty elsewhere, with Q one. There is
    /// no error at all.
    pub fn heard_at(antenna: usize) -> Case {
        let mut case = Case {
            elements: [[[0; 2]; ANTENNAS]; ANTENNAS],
            r: [[0; SIZE]; SIZE],
            q: std::array::from_fn(|i| std::array::from_fn(|j| if i == j { Q_ONE } else { 0 })),
        };
        case.set_entry(antenna, antenna, 17);
        for k in [antenna, antenna + ANTENNAS] {
            case.r[k][k] = 17 * STEP;
        }
        case
    }

    /// Those of two records that are not refused.
    pub fn of(matrix: &[u8], result: &[u8]) -> Case {
        let part = |at: usize| i16::from_be_bytes([matrix[at], matrix[at + 1]]);
        let element = |place: usize| [part(1 + 4 * place), part(3 + 4 * place)];
        let word = |place: usize| {
            let bytes = &result[1 + 4 * place..][..4];
            i32::from_be_bytes(bytes.try_into().unwrap())
        };
        Case {
            elements: std::array::from_fn(|i| std::array::from_fn(|j| element(ANTENNAS * i + j))),
            r: std::array::from_fn(|i| std::array::from_fn(|j| word(SIZE * i + j))),
            q: std::array::from_fn(|i| std::array::from_fn(|j| word(SIZE * (SIZE + j) + i))),
        }
    }

    /// Puts a number into entry (i, j) of the input made real, and so into the other entry that the
    /// same part of an element makes.
    pub fn set_entry(&mut self, i: usize, j: usize, entry: i16) {
        let element = &mut self.elements[i % ANTENNAS][j % ANTENNAS];
        match (i < ANTENNAS, j < ANTENNAS) {
            (true, true) | (false, false) => element[0] = entry,
            (false, true) => element[1] = entry,
            (true, false) => element[1] = -entry,
        }
    }

    pub fn matrix(&self) -> Vec<u8> {
        matrix(|i, j| self.elements[i][j].into())
    }

    pub fn result(&self) -> Vec<u8> {
        let r = self.r.iter().flatten().copied();
        let q_transposed = places().map(|(i, j)| self.q[j][i]);
        let words = r.chain(q_transposed).flat_map(i32::to_be_bytes);
        [KIND_RESULT].into_iter().chain(words).collect()
    }

    pub fn verdict(&self) -> Result<bool, Refusal> {
        hubqr::verify(&self.matrix(), &self.result())
    }
}

/// All places (row, column), row by row.
pub fn places() -> impl Iterator<Item = (usize, usize)> {
    (0..SIZE * SIZE).map(|place| (place / SIZE, place % SIZE))
}

/// An antenna that has none of these rows and columns.
pub fn other_antenna(indices: &[usize]) -> usize {
    let free = |antenna: &usize| indices.iter().all(|index| index % ANTENNAS != *antenna);
    (0..ANTENNAS).find(free).unwrap()
}
