//! The matrix records of the run-only cases.

use crate::matrix::{Complex, Matrix};
use crate::records::{parse_matrix, write_matrix, MATRIX_KIND, MATRIX_RECORD};

#[derive(Debug, Clone, Copy)]
pub enum Sample {
    Full,
    /// Element (0, 0) is 1, all else is 0.
    Single,
    Lowest,
    /// Real parts 16 on the diagonal, which no antenna is heard with.
    Hum,
    /// Real parts 17 on the diagonal, which every antenna is heard with.
    Quietest,
    /// Real parts 16 on the diagonal but antenna 5's, which is 17.
    OneQuietest,
    /// Real parts -17 on the diagonal.
    Negative,
    /// (32767, 0) on the diagonal, which no turn has anything to do with.
    Diagonal,
    /// The elements of the full matrix that belong to antennas 0 to 3 alone.
    Corner,
}

/// A record, and one byte behind it.
type Bytes = [u8; MATRIX_RECORD + 1];

impl Sample {
    pub fn title(self) -> &'static str {
        match self {
            Sample::Full => "A matrix with parts of all sizes",
            Sample::Single => "A single element 1",
            Sample::Lowest => "All parts -32768",
            Sample::Hum => "Diagonal real parts 16, all other parts 32767",
            Sample::Quietest => "Diagonal real parts 17, all other parts 32767",
            Sample::OneQuietest => {
                "Diagonal real parts 16 but antenna 5's 17, all other parts 32767"
            }
            Sample::Negative => "Diagonal real parts -17, all other parts 32767",
            Sample::Diagonal => "Diagonal elements (32767, 0), all others 0",
            Sample::Corner => "Parts of all sizes for antennas 0 to 3, all others 0",
        }
    }

    pub fn bytes(self) -> Bytes {
        match self {
            Sample::Full => full(),
            Sample::Single => of_matrix(everywhere(0).with_diagonal_at(0, 1)),
            Sample::Lowest => of_matrix(everywhere(i16::MIN)),
            Sample::Hum => loud_but_for_the_diagonal(|_| 16),
            Sample::Quietest => loud_but_for_the_diagonal(|_| 17),
            Sample::OneQuietest => loud_but_for_the_diagonal(|k| if k == 5 { 17 } else { 16 }),
            Sample::Negative => loud_but_for_the_diagonal(|_| -17),
            Sample::Diagonal => of_matrix(everywhere(0).with_diagonal(|_| i16::MAX)),
            Sample::Corner => of_matrix(corner()),
        }
    }
}

/// Bytes that look random: bits 16 to 23 of a number that grows with the place.
fn full() -> Bytes {
    let mut bytes = std::array::from_fn(|i| ((i as u64 * 1_103_515_245 + 12_345) >> 16) as u8);
    bytes[0] = MATRIX_KIND;
    bytes
}

fn corner() -> Matrix {
    let full = parse_matrix(&full()[..MATRIX_RECORD]).expect("kind and length are right");
    Matrix::from_fn(|i, j| {
        if i < 4 && j < 4 {
            full.element(i, j)
        } else {
            Complex::ZERO
        }
    })
}

fn everywhere(part: i16) -> Matrix {
    Matrix::from_fn(|_, _| Complex::new(part, part))
}

fn loud_but_for_the_diagonal(re: impl FnMut(usize) -> i16) -> Bytes {
    of_matrix(everywhere(i16::MAX).with_diagonal(re))
}

fn of_matrix(matrix: Matrix) -> Bytes {
    let mut bytes = [0; MATRIX_RECORD + 1];
    bytes[..MATRIX_RECORD].copy_from_slice(&write_matrix(&matrix));
    bytes
}
