//! The columns of R, for those who use R without Q: the sums of their products are those of the
//! input's columns times 2^26, within 2^44. Every test of a worked matrix holds them to it; here
//! are the matrices for which tighter or other promises are false, and what the sums say of
//! antennas.

mod common;

use common::{Both, Case};
use reference::accuracy::{Errors, BOUND};
use reference::area::WorkArea;
use reference::cases::Kind;
use reference::matrix::{Complex, Matrix, ANTENNAS, REAL_SIZE};
use reference::random::Random;
use reference::records::write_matrix;

/// Matrices of each kind whose antennas are compared.
const PER_KIND: u64 = 50;

/// The area of a matrix that Whole worked, and its errors.
fn worked(test: &'static str, number: u64, matrix: &Matrix) -> (WorkArea, Errors) {
    let record = write_matrix(matrix);
    let mut both = Both::new(Case::new(test, 1201, number, &record));
    let reply = both.whole(&record);
    both.require(reply.number == 0, "Whole refused a matrix that was heard");
    (both.area(), both.errors())
}

fn loudest() -> Matrix {
    Matrix::from_fn(|_, _| Complex::new(i16::MAX, i16::MAX))
}

/// The sum of products of columns i and j of R.
fn columns_of_r(area: &WorkArea, i: usize, j: usize) -> i128 {
    let product = |k| i128::from(area.r(k, i)) * i128::from(area.r(k, j));
    (0..REAL_SIZE).map(product).sum()
}

/// The same of rows i and j.
fn rows_of_r(area: &WorkArea, i: usize, j: usize) -> i128 {
    let product = |k| i128::from(area.r(i, k)) * i128::from(area.r(j, k));
    (0..REAL_SIZE).map(product).sum()
}

/// With all parts 32767 every two columns of the input have one of two sums: 16 times 32767^2 where
/// both are of the same half, and 0 otherwise.
const SQUARED_LENGTH: i128 = 16 * 32767 * 32767;

#[test]
fn all_parts_32767_move_a_squared_length_by_more_than_2_to_the_37() {
    let (area, errors) = worked("the loudest matrix", 0, &loudest());
    let moved = columns_of_r(&area, 15, 15) - (SQUARED_LENGTH << 26);
    assert_eq!(moved, 222_178_544_447);
    assert_eq!(errors.columns, moved, "another pair is moved further");
    assert!(moved > 1 << 37);
}

#[test]
fn twice_the_scale_and_rows_for_columns_are_far_beyond_the_bound() {
    let (area, _) = worked("the loudest matrix", 1, &loudest());
    let column = columns_of_r(&area, 0, 0);
    assert!((column - (SQUARED_LENGTH << 27)).abs() > 1000 * BOUND);
    let row = rows_of_r(&area, 0, 0);
    assert!((row - (SQUARED_LENGTH << 26)).abs() > 1000 * BOUND);
}

/// R's diagonal word 0 is 11 above 2^13 times the length of the input's first column, and its square
/// off by more than 2^34. The second column has a word above its diagonal one.
#[test]
fn diagonal_word_0_of_all_parts_32767_is_11_too_long() {
    let (area, errors) = worked("the loudest matrix", 2, &loudest());
    assert_eq!(i64::from(area.r(0, 0)), 4 * 32767 * 8192 + 11);
    assert_eq!(errors.first_word, 11);
    let moved = columns_of_r(&area, 0, 0) - (SQUARED_LENGTH << 26);
    assert!(moved > 1 << 34);
    assert_ne!(area.r(0, 1), 0);
}

/// The element (32767, 32767) alone makes a column of length 32767 times the root of 2, which times
/// 2^13 is 379,613,477.26.
#[test]
fn diagonal_word_0_of_one_element_is_too_short() {
    let element = |i, j| if i + j == 0 { i16::MAX } else { 0 };
    let matrix = Matrix::from_fn(|i, j| Complex::new(element(i, j), element(i, j)));
    let (area, errors) = worked("one element", 0, &matrix);
    assert_eq!((area.r(0, 0), errors.first_word), (379_613_477, 1));
    let square = (2 * i128::from(i16::MAX).pow(2)) << 26;
    assert!(i128::from(area.r(0, 0)).pow(2) < square);
}

/// The sum over the rows of the conjugate of antenna i's element times antenna j's: its real and
/// imaginary part, from the complex matrix alone.
fn antennas_product(matrix: &Matrix, i: usize, j: usize) -> (i128, i128) {
    let parts = |k, antenna| {
        let Complex { re, im } = matrix.element(k, antenna);
        (i128::from(re), i128::from(im))
    };
    let products = (0..ANTENNAS).map(|k| {
        let ((a, b), (c, d)) = (parts(k, i), parts(k, j));
        (a * c + b * d, a * d - b * c)
    });
    products.fold((0, 0), |sum, product| {
        (sum.0 + product.0, sum.1 + product.1)
    })
}

/// The real part is read from columns i and j of R, the imaginary one from columns 8 + i and j. With
/// the other sign, or from columns i and 8 + j, they would be wrong.
#[test]
fn antennas_are_compared_by_columns_of_r() {
    let (mut conjugates_differ, mut columns_differ) = (0, 0);
    for kind in Kind::ALL {
        for number in 0..PER_KIND {
            let matrix = kind.matrix(&mut Random::for_case(kind as u64, number));
            let (area, _) = worked(kind.name(), number, &matrix);
            for (i, j) in (0..ANTENNAS * ANTENNAS).map(|k| (k / ANTENNAS, k % ANTENNAS)) {
                let (re, im) = antennas_product(&matrix, i, j);
                let near =
                    |a, b, part: i128| (columns_of_r(&area, a, b) - (part << 26)).abs() <= BOUND;
                let within = near(i, j, re) && near(ANTENNAS + i, j, im);
                assert!(within, "{}, {number}: antennas {i}, {j}", kind.name());
                conjugates_differ += u32::from(!near(ANTENNAS + i, j, -im));
                columns_differ += u32::from(!near(i, ANTENNAS + j, re));
            }
        }
    }
    assert!(conjugates_differ > 0 && columns_differ > 0);
}
