//! Matrices with zeros in whole regions, so that many turns find their column clear.

use super::{any, heard_part};
use crate::matrix::{Complex, Matrix, ANTENNAS};
use crate::random::Random;

/// How the diagonal is drawn where its elements are real.
#[derive(Clone, Copy)]
enum Diagonal {
    EitherSign,
    /// Every antenna is heard, and no sign has to be changed.
    Positive,
}

impl Diagonal {
    const ALL: [Diagonal; 2] = [Diagonal::EitherSign, Diagonal::Positive];

    fn draw(self, random: &mut Random) -> Complex {
        let re = match self {
            Diagonal::EitherSign => random.part(),
            Diagonal::Positive => heard_part(random),
        };
        Complex::new(re, 0)
    }
}

/// Elements that are asked for where something stands, and zeros elsewhere.
fn only_where(
    stands: impl Fn(usize, usize) -> bool,
    mut element: impl FnMut(usize, usize) -> Complex,
) -> Matrix {
    Matrix::from_fn(|i, j| {
        if stands(i, j) {
            element(i, j)
        } else {
            Complex::ZERO
        }
    })
}

pub fn diagonal(random: &mut Random) -> Matrix {
    let real = random.one_in(2);
    let signs = random.choose(&Diagonal::ALL);
    only_where(
        |i, j| i == j,
        |_, _| {
            if real {
                signs.draw(random)
            } else {
                any(random)
            }
        },
    )
}

/// Half of the antennas stand empty: neighbours, every second one, or in pairs.
pub fn half_empty(random: &mut Random) -> Matrix {
    let empty = random.choose(&[0x0F, 0xF0, 0x55, 0xAA, 0x33, 0xC3]);
    let (rows, columns) = random.choose(&[(true, false), (false, true), (true, true)]);
    let is_empty = |k: usize| empty >> k & 1 == 1;
    let stands = |i, j| !(rows && is_empty(i) || columns && is_empty(j));
    only_where(stands, |_, _| any(random))
}

/// Neighbouring antennas in groups of any size, each of which hears itself alone.
pub fn block_diagonal(random: &mut Random) -> Matrix {
    let mut groups = [0; ANTENNAS];
    for k in 1..ANTENNAS {
        groups[k] = groups[k - 1] + usize::from(random.one_in(3));
    }
    only_where(|i, j| groups[i] == groups[j], |_, _| any(random))
}

pub fn banded(random: &mut Random) -> Matrix {
    let (below, above, real) = (random.below(4), random.below(4), random.one_in(2));
    only_where(
        |i, j| i <= j + below && j <= i + above,
        |_, _| {
            let Complex { re, im } = any(random);
            Complex::new(re, if real { 0 } else { im })
        },
    )
}

pub fn real_triangular(random: &mut Random) -> Matrix {
    let signs = random.choose(&Diagonal::ALL);
    only_where(
        |i, j| i <= j,
        |i, j| {
            if i == j {
                signs.draw(random)
            } else {
                Complex::new(random.part(), 0)
            }
        },
    )
}

#[cfg(test)]
mod tests {
    use super::*;
    use std::collections::BTreeSet;

    type Draw = fn(&mut Random) -> Matrix;

    /// Many draws.
    fn drawn(draw: Draw) -> impl Iterator<Item = Matrix> {
        (0..200).map(move |case| draw(&mut Random::for_case(7, case)))
    }

    /// The places with an element other than zero.
    fn places(matrix: &Matrix) -> BTreeSet<(usize, usize)> {
        let all = (0..ANTENNAS).flat_map(|i| (0..ANTENNAS).map(move |j| (i, j)));
        all.filter(|&(i, j)| matrix.element(i, j) != Complex::ZERO)
            .collect()
    }

    #[test]
    fn diagonals_have_eight_places() {
        for matrix in drawn(diagonal) {
            assert!(places(&matrix).iter().all(|(i, j)| i == j));
        }
    }

    /// What stands is what four rows or four columns, or both, leave. A drawn element is hardly
    /// ever zero.
    #[test]
    fn half_of_the_antennas_stand_empty() {
        let sizes: BTreeSet<usize> = drawn(half_empty).map(|m| places(&m).len()).collect();
        assert_eq!(sizes, [16, 32].into());
    }

    #[test]
    fn blocks_are_square_and_leave_the_rest_empty() {
        let mut sizes = BTreeSet::new();
        for matrix in drawn(block_diagonal) {
            let places = places(&matrix);
            for &(i, j) in &places {
                assert!(places.contains(&(j, i)), "({i}, {j}) stands alone");
                let (low, high) = (i.min(j), i.max(j));
                let square = (low..=high).flat_map(|i| (low..=high).map(move |j| (i, j)));
                assert!(square.into_iter().all(|place| places.contains(&place)));
            }
            sizes.insert(places.len());
        }
        assert!(sizes.len() > 5, "{sizes:?}");
    }

    #[test]
    fn bands_are_of_every_width_up_to_seven() {
        let mut widths = BTreeSet::new();
        for matrix in drawn(banded) {
            let offsets = places(&matrix)
                .into_iter()
                .map(|(i, j)| j as i32 - i as i32);
            let offsets: BTreeSet<i32> = offsets.collect();
            assert!(offsets.iter().all(|offset| (-3..=3).contains(offset)));
            widths.insert(offsets.len());
        }
        assert_eq!(widths, (1..=7).collect());
    }

    #[test]
    fn real_triangles_have_nothing_under_the_diagonal() {
        for matrix in drawn(real_triangular) {
            let real = matrix.to_real();
            assert!((0..16).all(|i| (0..i).all(|j| real[i][j] == 0)));
        }
    }
}
