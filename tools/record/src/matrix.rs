//! The matrix of a matrix record.

/// Rows and columns: one column for each antenna.
pub const SIZE: usize = 8;
pub const KIND: u8 = 1;
pub const BYTES: usize = 1 + 4 * SIZE * SIZE;

/// What a diagonal element's real part has to be above for its antenna to count as heard: a loose
/// plug leaves a part of one or two.
const HEARD_ABOVE: i16 = 16;

/// An element's parts in units of 1/32768.
#[derive(Clone, Copy, Debug, PartialEq)]
pub struct Element {
    pub real: i16,
    pub imaginary: i16,
}

#[derive(Debug, PartialEq)]
pub struct Matrix {
    pub rows: [[Element; SIZE]; SIZE],
}

impl Matrix {
    /// The matrix of a record that is known to have the right kind and length.
    pub fn from_record(record: &[u8; BYTES]) -> Matrix {
        let part = |at: usize| i16::from_be_bytes([record[at], record[at + 1]]);
        let element = |place: usize| Element {
            real: part(1 + 4 * place),
            imaginary: part(3 + 4 * place),
        };
        let row = |i: usize| std::array::from_fn(|j| element(SIZE * i + j));
        Matrix {
            rows: std::array::from_fn(row),
        }
    }

    pub fn to_record(&self) -> Vec<u8> {
        let mut record = vec![KIND];
        for element in self.rows.iter().flatten() {
            record.extend(element.real.to_be_bytes());
            record.extend(element.imaginary.to_be_bytes());
        }
        record
    }

    /// Whether no antenna was heard, for which the engine refuses the matrix.
    pub fn none_heard(&self) -> bool {
        self.heard() == 0
    }

    /// Bit k is set when the real part of element (k, k) is above `HEARD_ABOVE`.
    pub fn heard(&self) -> u8 {
        let antenna_heard = |k: &usize| self.rows[*k][*k].real > HEARD_ABOVE;
        (0..SIZE).filter(antenna_heard).map(|k| 1 << k).sum()
    }

    /// Entry (i, j) of the matrix made real, 16 by 16: real parts upper left and lower right,
    /// imaginary parts lower left, their negatives upper right.
    pub fn real_entry(&self, i: usize, j: usize) -> i32 {
        let element = self.rows[i % SIZE][j % SIZE];
        match (i < SIZE, j < SIZE) {
            (true, true) | (false, false) => i32::from(element.real),
            (true, false) => -i32::from(element.imaginary),
            (false, true) => i32::from(element.imaginary),
        }
    }

    /// The sum of products of columns i and j of the matrix made real.
    pub fn real_column_products(&self, i: usize, j: usize) -> i128 {
        let entry = |k: usize, column: usize| i128::from(self.real_entry(k, column));
        (0..2 * SIZE).map(|k| entry(k, i) * entry(k, j)).sum()
    }
}
