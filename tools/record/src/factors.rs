//! R and Q of a result record.
use std::array::from_fn;

/// Rows and columns of R and of Q.
pub const SIZE: usize = 16;
pub const KIND: u8 = 2;
pub const BYTES: usize = 1 + 4 * 2 * SIZE * SIZE;

pub type Words = [[i32; SIZE]; SIZE];

pub struct Factors {
    /// One step of the 16-bit input is 2^13.
    pub r: Words,
    /// One is 2^30. The record holds Q transposed; this is Q.
    pub q: Words,
}

/// The places in R that break its rule: words under the diagonal that are not 0, and negative ones
/// among the first 15 on it.
pub struct RuleBreaks {
    pub under_diagonal: Vec<(usize, usize)>,
    pub negative_diagonal: Vec<(usize, usize)>,
}

impl RuleBreaks {
    pub fn first(&self) -> Option<(usize, usize)> {
        let mut all = self.under_diagonal.iter().chain(&self.negative_diagonal);
        all.next().copied()
    }
}

impl Factors {
    /// The factors of a record that is known to have the right kind and length.
    pub fn from_record(record: &[u8; BYTES]) -> Factors {
        let word = |place: usize| {
            let at = 1 + 4 * place;
            i32::from_be_bytes([record[at], record[at + 1], record[at + 2], record[at + 3]])
        };
        Factors {
            r: from_fn(|i| from_fn(|j| word(SIZE * i + j))),
            q: from_fn(|i| from_fn(|j| word(SIZE * SIZE + SIZE * j + i))),
        }
    }

    /// What a word of R is, in words.
    pub fn word_of_r(&self, (i, j): (usize, usize)) -> String {
        format!("word ({i}, {j}) of R is {}", self.r[i][j])
    }

    /// The first place on R's diagonal that holds 0.
    pub fn zero_on_diagonal(&self) -> Option<(usize, usize)> {
        let mut diagonal = (0..SIZE).map(|i| (i, i));
        diagonal.find(|&(i, _)| self.r[i][i] == 0)
    }

    pub fn rule_breaks(&self) -> RuleBreaks {
        let under = |&(i, j): &(usize, usize)| j < i && self.r[i][j] != 0;
        let diagonal = (0..SIZE - 1).map(|i| (i, i));
        RuleBreaks {
            under_diagonal: places().filter(under).collect(),
            negative_diagonal: diagonal.filter(|&(i, _)| self.r[i][i] < 0).collect(),
        }
    }

    /// Entry (i, j) of Q times R, exactly.
    pub fn q_times_r(&self, i: usize, j: usize) -> i128 {
        let product = |k: usize| i128::from(self.q[i][k]) * i128::from(self.r[k][j]);
        (0..SIZE).map(product).sum()
    }

    /// The sum of products of rows i and j of Q, exactly.
    pub fn q_row_products(&self, i: usize, j: usize) -> i128 {
        let product = |k: usize| i128::from(self.q[i][k]) * i128::from(self.q[j][k]);
        (0..SIZE).map(product).sum()
    }

    /// The sum of products of columns i and j of R, exactly.
    pub fn r_column_products(&self, i: usize, j: usize) -> i128 {
        let product = |k: usize| i128::from(self.r[k][i]) * i128::from(self.r[k][j]);
        (0..SIZE).map(product).sum()
    }
}

/// All places (row, column), row by row.
pub fn places() -> impl Iterator<Item = (usize, usize)> {
    (0..SIZE * SIZE).map(|place| (place / SIZE, place % SIZE))
}
