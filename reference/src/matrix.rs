//! The complex matrix the antennas heard, and the real matrix it becomes.

/// Antennas of a hub: rows and columns of the complex matrix.
pub const ANTENNAS: usize = 8;

/// Rows and columns of the real matrix.
pub const REAL_SIZE: usize = 2 * ANTENNAS;

/// The loudest that an unplugged antenna hums: an antenna is heard when the real part of its own
/// element on the diagonal is above this.
pub const LOUDEST_HUM: i16 = 16;

/// The input made real, before any scaling.
pub type RealMatrix = [[i32; REAL_SIZE]; REAL_SIZE];

/// One element in Q1.15: the whole number `a` stands for a/32768.
#[derive(Debug, Clone, Copy, Default, PartialEq, Eq)]
pub struct Complex {
    pub re: i16,
    pub im: i16,
}

impl Complex {
    pub const ZERO: Complex = Complex { re: 0, im: 0 };

    pub const fn new(re: i16, im: i16) -> Self {
        Complex { re, im }
    }
}

/// The 8 by 8 complex matrix of a matrix record.
#[derive(Debug, Clone, PartialEq, Eq)]
pub struct Matrix {
    elements: [[Complex; ANTENNAS]; ANTENNAS],
}

impl Matrix {
    /// Builds a matrix from its elements, asked for row by row.
    pub fn from_fn(mut element: impl FnMut(usize, usize) -> Complex) -> Self {
        let mut elements = [[Complex::ZERO; ANTENNAS]; ANTENNAS];
        for (i, row) in elements.iter_mut().enumerate() {
            for (j, place) in row.iter_mut().enumerate() {
                *place = element(i, j);
            }
        }
        Matrix { elements }
    }

    /// The element in row `i` and column `j`.
    pub fn element(&self, i: usize, j: usize) -> Complex {
        self.elements[i][j]
    }

    /// The same matrix with another real part of element (k, k).
    pub fn with_diagonal_at(mut self, k: usize, re: i16) -> Self {
        self.elements[k][k].re = re;
        self
    }

    /// The same matrix with other real parts on the diagonal, one for each antenna.
    pub fn with_diagonal(self, mut re: impl FnMut(usize) -> i16) -> Self {
        (0..ANTENNAS).fold(self, |matrix, k| matrix.with_diagonal_at(k, re(k)))
    }

    /// Whether antenna k is heard. Nothing but the real part of element (k, k) counts.
    fn is_heard(&self, k: usize) -> bool {
        self.element(k, k).re > LOUDEST_HUM
    }

    /// The heard byte: bit k is set when antenna k is heard.
    pub fn heard(&self) -> u8 {
        let heard = (0..ANTENNAS).filter(|&k| self.is_heard(k));
        heard.map(|k| 1 << k).sum()
    }

    /// Whether no antenna is heard.
    pub fn none_heard(&self) -> bool {
        !(0..ANTENNAS).any(|k| self.is_heard(k))
    }

    /// The 16 by 16 real matrix: real parts upper left and lower right, imaginary parts lower left,
    /// their negatives upper right.
    pub fn to_real(&self) -> RealMatrix {
        let mut real = [[0; REAL_SIZE]; REAL_SIZE];
        for i in 0..ANTENNAS {
            for j in 0..ANTENNAS {
                let Complex { re, im } = self.element(i, j);
                real[i][j] = i32::from(re);
                real[i + ANTENNAS][j + ANTENNAS] = i32::from(re);
                real[i + ANTENNAS][j] = i32::from(im);
                real[i][j + ANTENNAS] = -i32::from(im);
            }
        }
        real
    }
}

#[cfg(test)]
mod tests {
    use super::*;

    fn one_element(row: usize, column: usize, element: Complex) -> Matrix {
        Matrix::from_fn(|i, j| {
            if (i, j) == (row, column) {
                element
            } else {
                Complex::ZERO
            }
        })
    }

    /// The heard byte, after the other predicate was found to say the same.
    fn heard(matrix: &Matrix) -> u8 {
        let heard = matrix.heard();
        assert_eq!(matrix.none_heard(), heard == 0);
        heard
    }

    #[test]
    fn an_antenna_is_heard_above_16() {
        for k in 0..ANTENNAS {
            for re in [i16::MIN, -17, -16, -1, 0, 1, 2, 15, 16] {
                assert_eq!(heard(&one_element(k, k, Complex::new(re, 0))), 0);
            }
            for re in [17, 18, 256, i16::MAX] {
                assert_eq!(heard(&one_element(k, k, Complex::new(re, 0))), 1 << k);
            }
        }
    }

    #[test]
    fn each_antenna_has_a_bit_of_its_own() {
        for byte in 0..=255 {
            let re = |k: usize| if byte >> k & 1 == 1 { 17 } else { 16 };
            for other in [Complex::ZERO, Complex::new(i16::MAX, i16::MAX)] {
                let matrix = Matrix::from_fn(|_, _| other).with_diagonal(re);
                assert_eq!(heard(&matrix), byte);
            }
        }
    }

    #[test]
    fn imaginary_parts_and_elements_off_the_diagonal_do_not_count() {
        let loudest = Complex::new(i16::MAX, i16::MAX);
        for i in 0..ANTENNAS {
            for j in 0..ANTENNAS {
                let element = if i == j {
                    Complex::new(16, i16::MAX)
                } else {
                    loudest
                };
                assert_eq!(heard(&one_element(i, j, element)), 0);
            }
        }
        assert_eq!(heard(&Matrix::from_fn(|_, _| Complex::new(0, i16::MAX))), 0);
        assert_eq!(heard(&Matrix::from_fn(|_, _| loudest)), 255);
    }

    #[test]
    fn another_diagonal_leaves_all_else() {
        let matrix = Matrix::from_fn(|i, j| Complex::new(i as i16, -(j as i16)));
        let other = matrix.clone().with_diagonal(|k| 100 + k as i16);
        for i in 0..ANTENNAS {
            for j in 0..ANTENNAS {
                let Complex { re, im } = matrix.element(i, j);
                let re = if i == j { 100 + re } else { re };
                assert_eq!(other.element(i, j), Complex::new(re, im));
            }
        }
    }

    #[test]
    fn one_element_stands_in_four_places_of_the_real_matrix() {
        let real = one_element(2, 5, Complex::new(3, -32768)).to_real();
        assert_eq!(real[2][5], 3);
        assert_eq!(real[10][13], 3);
        assert_eq!(real[10][5], -32768);
        assert_eq!(real[2][13], 32768);
        assert_eq!(real.iter().flatten().filter(|&&w| w != 0).count(), 4);
    }
}
