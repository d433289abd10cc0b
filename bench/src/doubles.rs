//! For scale: the factorization in double, of the 8 by 8 complex matrix or of the 16 by 16 real one,
//! where LAPACK or Eigen is installed.

use reference::matrix::{RealMatrix, REAL_SIZE};

use crate::contenders::Record;

/// A matrix column by column: 16 by 16 real numbers, or 8 by 8 complex ones in the first half.
pub type Double = [f64; REAL_SIZE * REAL_SIZE];

/// Rows and columns of the complex matrix.
#[cfg(lapack)]
const SIZE: usize = REAL_SIZE / 2;

/// Factors a matrix record into Q and R.
#[derive(Clone, Copy)]
pub struct Comparator {
    pub name: &'static str,
    pub factor: fn(&Record, &mut Double, &mut Double),
    /// A factor as a 16 by 16 real matrix.
    pub real: fn(&Double) -> Double,
}

#[cfg(any(lapack, eigen))]
extern "C" {
    #[cfg(lapack)]
    fn lapack_factor(record: &Record, q: &mut Double, r: &mut Double) -> i32;
    #[cfg(lapack)]
    fn lapack_complex_factor(record: &Record, q: &mut Double, r: &mut Double) -> i32;
    #[cfg(eigen)]
    fn eigen_factor(record: &Record, q: &mut Double, r: &mut Double) -> i32;
}

/// The comparators that this build has.
pub fn all() -> Vec<Comparator> {
    // SAFETY: lapack.c, lapack_complex.c and eigen.cpp stay within what they are lent.
    vec![
        #[cfg(lapack)]
        Comparator {
            name: "LAPACK, complex",
            factor: |record, q, r| assert_eq!(unsafe { lapack_complex_factor(record, q, r) }, 0),
            real: made_real,
        },
        #[cfg(lapack)]
        Comparator {
            name: "LAPACK, real",
            factor: |record, q, r| assert_eq!(unsafe { lapack_factor(record, q, r) }, 0),
            real: |factor| *factor,
        },
        #[cfg(eigen)]
        Comparator {
            name: "Eigen, real",
            factor: |record, q, r| assert_eq!(unsafe { eigen_factor(record, q, r) }, 0),
            real: |factor| *factor,
        },
    ]
}

/// A complex matrix made real, as the paper makes the input real: real parts upper left and lower
/// right, imaginary parts lower left, their negatives upper right.
#[cfg(lapack)]
fn made_real(complex: &Double) -> Double {
    let mut real = [0.0; REAL_SIZE * REAL_SIZE];
    for j in 0..SIZE {
        for i in 0..SIZE {
            let (re, im) = (complex[2 * (SIZE * j + i)], complex[2 * (SIZE * j + i) + 1]);
            real[REAL_SIZE * j + i] = re;
            real[REAL_SIZE * (j + SIZE) + i + SIZE] = re;
            real[REAL_SIZE * j + i + SIZE] = im;
            real[REAL_SIZE * (j + SIZE) + i] = -im;
        }
    }
    real
}

/// The largest difference between Q times R and the input, whose entries are below 1.
pub fn product_error(input: &RealMatrix, q: &Double, r: &Double) -> f64 {
    let mut largest = 0.0_f64;
    for (i, row) in input.iter().enumerate() {
        for (j, &entry) in row.iter().enumerate() {
            let terms = (0..REAL_SIZE).map(|k| q[REAL_SIZE * k + i] * r[REAL_SIZE * j + k]);
            let error = terms.sum::<f64>() - f64::from(entry) / 32768.0;
            largest = largest.max(error.abs());
        }
    }
    largest
}
