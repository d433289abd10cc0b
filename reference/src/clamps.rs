//! Clamps, counted by the side of the area that they fall in.

use std::iter::Sum;
use std::ops::AddAssign;

use crate::matrix::REAL_SIZE;

/// How many stored words clamping altered. A wrong word of R and a wrong word of Q do different
/// harm, so each side has a count of its own.
#[derive(Debug, Clone, Copy, Default, PartialEq, Eq)]
pub struct Clamps {
    /// In columns 0 to 15, which hold R in the making.
    pub r: u32,
    /// In columns 16 to 31, which hold Q transposed.
    pub q: u32,
}

impl Clamps {
    pub const NONE: Clamps = Clamps { r: 0, q: 0 };

    /// Counts one word of a column.
    pub fn count(&mut self, column: usize) {
        let side = if column < REAL_SIZE {
            &mut self.r
        } else {
            &mut self.q
        };
        *side += 1;
    }
}

impl AddAssign for Clamps {
    fn add_assign(&mut self, other: Clamps) {
        self.r += other.r;
        self.q += other.q;
    }
}

impl Sum for Clamps {
    fn sum<I: Iterator<Item = Clamps>>(counts: I) -> Self {
        counts.fold(Clamps::NONE, |mut all, clamps| {
            all += clamps;
            all
        })
    }
}

#[cfg(test)]
mod tests {
    use super::*;

    #[test]
    fn each_column_counts_on_its_side() {
        for column in 0..32 {
            let mut clamps = Clamps::NONE;
            clamps.count(column);
            let r = u32::from(column <= 15);
            assert_eq!(clamps, Clamps { r, q: 1 - r }, "column {column}");
        }
    }

    #[test]
    fn sums_are_by_side() {
        let counts = [(1, 0), (0, 20), (300, 4000)].map(|(r, q)| Clamps { r, q });
        assert_eq!(
            counts.into_iter().sum::<Clamps>(),
            Clamps { r: 301, q: 4020 }
        );
    }
}
