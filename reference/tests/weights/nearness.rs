//! How near the weights are to the solution of A w = t, where A is the matrix that was factored and
//! t the targets. Of that nothing is proved.

use reference::cases::Kind;
use reference::matrix::{Complex, Matrix, ANTENNAS};
use reference::random::Random;

use crate::common::weights::{Seen, Targets};
use crate::common::Case;
use crate::worked::fetched;

/// Matrices of each kind.
const MATRICES: u64 = 300;

/// The real and the imaginary part of a complex number.
type Pair = (f64, f64);

type Draw = fn(&mut Random) -> Matrix;

fn minus(a: Pair, b: Pair) -> Pair {
    (a.0 - b.0, a.1 - b.1)
}

fn times(a: Pair, b: Pair) -> Pair {
    (a.0 * b.0 - a.1 * b.1, a.0 * b.1 + a.1 * b.0)
}

fn divide(a: Pair, b: Pair) -> Pair {
    let (re, im) = times(a, (b.0, -b.1));
    let square = b.0 * b.0 + b.1 * b.1;
    (re / square, im / square)
}

/// The root of the sum of all squares.
fn norm<'a>(pairs: impl IntoIterator<Item = &'a Pair>) -> f64 {
    let squares = pairs.into_iter().map(|(re, im)| re * re + im * im);
    squares.sum::<f64>().sqrt()
}

/// A system of eight equations: the elements of A, and a target for each row.
struct System {
    rows: [[Pair; ANTENNAS]; ANTENNAS],
    right: [Pair; ANTENNAS],
}

impl System {
    fn new(matrix: &Matrix, targets: &Targets) -> Self {
        let element = |i, j| {
            let Complex { re, im } = matrix.element(i, j);
            (f64::from(re), f64::from(im))
        };
        System {
            rows: std::array::from_fn(|i| std::array::from_fn(|j| element(i, j))),
            right: targets.map(|(re, im)| (f64::from(re), f64::from(im))),
        }
    }

    /// The solution by elimination, each column with the largest element that is left in it.
    fn solution(mut self) -> [Pair; ANTENNAS] {
        for k in 0..ANTENNAS {
            let size = |i: &usize| norm([&self.rows[*i][k]]);
            let largest = (k..ANTENNAS).max_by(|a, b| size(a).total_cmp(&size(b)));
            let largest = largest.expect("k is one of them");
            self.rows.swap(k, largest);
            self.right.swap(k, largest);
            for i in k + 1..ANTENNAS {
                let factor = divide(self.rows[i][k], self.rows[k][k]);
                for j in k..ANTENNAS {
                    self.rows[i][j] = minus(self.rows[i][j], times(factor, self.rows[k][j]));
                }
                self.right[i] = minus(self.right[i], times(factor, self.right[k]));
            }
        }
        let mut solution = [(0.0, 0.0); ANTENNAS];
        for i in (0..ANTENNAS).rev() {
            solution[i] = divide(self.left(i, &solution), self.rows[i][i]);
        }
        solution
    }

    /// What an equation leaves of its target.
    fn left(&self, i: usize, weights: &[Pair; ANTENNAS]) -> Pair {
        let products = self.rows[i].iter().zip(weights).map(|(&a, &w)| times(a, w));
        products.fold(self.right[i], minus)
    }

    /// |A w - t| as a share of |A| |w| + |t|.
    fn residual(&self, weights: &[Pair; ANTENNAS]) -> f64 {
        let left: [Pair; ANTENNAS] = std::array::from_fn(|i| self.left(i, weights));
        norm(&left) / (norm(self.rows.iter().flatten()) * norm(weights) + norm(&self.right))
    }
}

/// A covariance with the noise of the antennas' receivers on its diagonal.
fn noisy_covariance(random: &mut Random) -> Matrix {
    let matrix = Kind::Covariance.matrix(random);
    let noise = random.between(500, 5_000) as i16;
    let power = |k| matrix.element(k, k).re;
    matrix
        .clone()
        .with_diagonal(|k| power(k).saturating_add(noise))
}

/// The largest relative difference from the solution by elimination, and the largest residual, of
/// random matrices and targets.
fn nearness(seed: u64, draw: Draw) -> (f64, f64) {
    let (mut seen, mut difference, mut residual) = (Seen::NONE, 0.0_f64, 0.0_f64);
    for number in 0..MATRICES {
        let case = Case::of_words("nearness", seed, number);
        let mut random = case.random();
        let matrix = draw(&mut random);
        let record = fetched(&matrix, case);
        let targets = std::array::from_fn(|_| (random.part(), random.part()));
        let case = Case::new("nearness", seed, number, &record);
        let weights = seen.weights(&case, &record, &targets).weights;
        let system = System::new(&matrix, &targets);
        residual = residual.max(system.residual(&weights));
        let solution = system.solution();
        let apart: [Pair; ANTENNAS] = std::array::from_fn(|k| minus(weights[k], solution[k]));
        difference = difference.max(norm(&apart) / norm(&solution));
    }
    assert_eq!(seen.accepted, MATRICES, "a singular matrix was drawn");
    (difference, residual)
}

/// The error that the factorization leaves is about the same in steps of the input whatever the
/// input's size, and so a larger share of quiet matrices. Each bound, a power of two, is
/// about two to five times the largest residual that was measured.
#[test]
fn weights_are_near_the_solution_of_well_conditioned_systems() {
    let kinds: [(&str, Draw, i32); 5] = [
        ("full range", |random| Kind::FullRange.matrix(random), -23),
        ("one-sided", |random| Kind::OneSided.matrix(random), -21),
        (
            "powers of two",
            |random| Kind::PowersOfTwo.matrix(random),
            -22,
        ),
        ("orthogonal", |random| Kind::Orthogonal.matrix(random), -12),
        ("noisy covariance", noisy_covariance, -18),
    ];
    println!("\nNearness of {MATRICES} matrices of each kind");
    for ((name, draw, bound), seed) in kinds.into_iter().zip(981..) {
        let (difference, residual) = nearness(seed, draw);
        let [apart, left] = [difference, residual].map(f64::log2);
        println!("{name:16} from the solution 2^{apart:.2}, residual 2^{left:.2}, bound 2^{bound}");
        assert!(residual <= f64::from(bound).exp2(), "{name}: {residual:e}");
    }
}
