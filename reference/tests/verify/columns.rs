//! What holds of the columns of R in every result of the engine is not asked for a yes.

use reference::accuracy::{Errors, BOUND};
use reference::matrix::{Complex, Matrix, ANTENNAS};

use crate::pair::{Family, Pair};
use crate::rules::{Compared, Rule};

const LAST: usize = ANTENNAS - 1;

/// The columns of R that hold the last antenna's, and the rows of each that have its real parts.
fn words() -> impl Iterator<Item = (usize, usize)> {
    (0..ANTENNAS).flat_map(|k| [(k, LAST), (ANTENNAS + k, ANTENNAS + LAST)])
}

/// Of a column with eight parts of 32767 each word of R is off by 2^14, so that eight entries of Q
/// times R are off by as much as they may be. The sum of the column's squares is then off by about 2
/// times 2^14 times 2^28 for each of them, which is 2^46 together.
#[test]
fn columns_of_r_far_beyond_their_bound_get_yes() {
    let mut compared = Compared::new([Rule::ColumnsToo]);
    let element = |j| if j == LAST { i16::MAX } else { 0 };
    let exact = Pair::exact(Matrix::from_fn(|_, j| Complex::new(element(j), 0)));
    for (off, number) in [1 << 14, -(1 << 14)].into_iter().zip(0..) {
        let mut pair = exact.clone();
        words().for_each(|(i, j)| pair.add_to_r(i, j, off));
        let product = pair.differences(Family::Product);
        let bound = i128::from(off.signum()) * BOUND;
        assert!(words().all(|(i, j)| product[i][j] == bound));
        let columns = Errors::of(&pair.matrix.to_real(), &pair.area).columns;
        let due = if off > 0 {
            1 << 46
        } else {
            (1 << 46) - (1 << 32)
        };
        assert_eq!(columns, due);
        assert!(compared.verify("columns of R", 0, number, &pair).yes);
    }
    compared.print_and_require_all_rules("Columns of R beyond their bound");
}
