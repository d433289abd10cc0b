//! A board that factors by itself: Householder reflections in 64-bit floats, rounded to words at the
//! end. It shares no step with the engine.

use reference::area::{WorkArea, AREA_WORDS};
use reference::matrix::{Matrix, REAL_SIZE};

pub type Real = [[f64; REAL_SIZE]; REAL_SIZE];

/// What stands for one in the words of R, of a matrix in whole steps, and in those of Q.
const R_SCALE: f64 = (1 << 13) as f64;
const Q_SCALE: f64 = (1 << 30) as f64;

/// The matrix made real, in floats.
pub fn real(matrix: &Matrix) -> Real {
    matrix.to_real().map(|row| row.map(f64::from))
}

/// R and Q that the board writes for a matrix.
pub fn written(matrix: &Matrix) -> WorkArea {
    Factors::of(&real(matrix)).rounded()
}

#[derive(Debug, Clone)]
pub struct Factors {
    pub q: Real,
    pub r: Real,
}

impl Factors {
    /// Q and R of a matrix. None of R's first fifteen diagonal entries is negative, as test 8 wants
    /// it; the last one has the sign that the reflections leave.
    pub fn of(matrix: &Real) -> Self {
        let one = |i, j| if i == j { 1.0 } else { 0.0 };
        let mut factors = Factors {
            q: std::array::from_fn(|i| std::array::from_fn(|j| one(i, j))),
            r: *matrix,
        };
        for k in 0..REAL_SIZE - 1 {
            factors.reflect(k);
            if factors.r[k][k] < 0.0 {
                factors.negate(k);
            }
        }
        factors
    }

    /// Clears column k of R under the diagonal.
    fn reflect(&mut self, k: usize) {
        let mut v = [0.0; REAL_SIZE];
        (k..REAL_SIZE).for_each(|i| v[i] = self.r[i][k]);
        if v[k + 1..].iter().all(|entry| *entry == 0.0) {
            return;
        }
        v[k] += dot(&v, &v).sqrt().copysign(v[k]);
        let twice = 2.0 / dot(&v, &v);
        for j in k..REAL_SIZE {
            let column: [f64; REAL_SIZE] = std::array::from_fn(|i| self.r[i][j]);
            let along = twice * dot(&v, &column);
            (k..REAL_SIZE).for_each(|i| self.r[i][j] -= along * v[i]);
        }
        (k + 1..REAL_SIZE).for_each(|i| self.r[i][k] = 0.0);
        for row in &mut self.q {
            let along = twice * dot(&v, row);
            (k..REAL_SIZE).for_each(|i| row[i] -= along * v[i]);
        }
    }

    /// Negates row k of R and column k of Q, which leaves their product.
    pub fn negate(&mut self, k: usize) {
        self.r[k] = self.r[k].map(|entry| -entry);
        self.q.iter_mut().for_each(|row| row[k] = -row[k]);
    }

    /// The words nearest to R and Q.
    pub fn rounded(&self) -> WorkArea {
        let mut area = WorkArea::from_words(&[0; AREA_WORDS]);
        for row in 0..REAL_SIZE {
            for column in 0..REAL_SIZE {
                let r = R_SCALE * self.r[row][column];
                area.set_word(row, column, r.round() as i32);
                let q = Q_SCALE * self.q[column][row];
                area.set_word(row, REAL_SIZE + column, q.round() as i32);
            }
        }
        area
    }
}

fn dot(a: &[f64; REAL_SIZE], b: &[f64; REAL_SIZE]) -> f64 {
    a.iter().zip(b).map(|(a, b)| a * b).sum()
}
