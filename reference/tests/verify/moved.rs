//! Right factors with rows, columns or halves in other places, or of the other sign.

use reference::area::{WorkArea, AREA_WORDS};
use reference::cases::Kind;
use reference::matrix::{Complex, Matrix, ANTENNAS, REAL_SIZE};
use reference::random::Random;

use crate::pair::Pair;
use crate::rules::{Compared, Rule};

/// Matrices that each way is tried with.
const MATRICES: u64 = 8;

/// How the factors of a matrix are handed over.
#[derive(Debug, Clone, Copy)]
enum Way {
    /// Two rows of Q stand in each other's place.
    QRowsSwapped(usize, usize),
    /// Two columns of Q do.
    QColumnsSwapped(usize, usize),
    /// Q stands where Q transposed is due.
    QTransposed,
    /// A row of Q has the other sign.
    QRowNegated(usize),
    /// A column of Q has.
    QColumnNegated(usize),
    /// A row of R has.
    RRowNegated(usize),
    /// Column k of Q and row k of R have, which leaves their product.
    BothNegated(usize),
    /// All of Q and all of R have, which leaves it, too.
    AllNegated,
    /// R stands where Q transposed is due, and Q transposed where R is.
    Exchanged,
    /// Two rows of the matrix stand in each other's place, and those of Q do not.
    MatrixRowsSwapped(usize, usize),
    /// The rows of Q do as well.
    RowsSwapped(usize, usize),
    /// The matrix is transposed.
    MatrixTransposed,
    /// All imaginary parts of the matrix have the other sign.
    MatrixConjugated,
}

/// Each two of that many, in one order.
fn twos(count: usize) -> impl Iterator<Item = (usize, usize)> {
    (0..count).flat_map(move |b| (0..b).map(move |a| (a, b)))
}

fn ways() -> Vec<Way> {
    let mut ways = vec![
        Way::QTransposed,
        Way::AllNegated,
        Way::Exchanged,
        Way::MatrixTransposed,
        Way::MatrixConjugated,
    ];
    for (a, b) in twos(REAL_SIZE) {
        ways.extend([Way::QRowsSwapped(a, b), Way::QColumnsSwapped(a, b)]);
    }
    for (a, b) in twos(ANTENNAS) {
        ways.extend([Way::MatrixRowsSwapped(a, b), Way::RowsSwapped(a, b)]);
    }
    for k in 0..REAL_SIZE {
        ways.extend([Way::QRowNegated(k), Way::QColumnNegated(k)]);
        ways.extend([Way::RRowNegated(k), Way::BothNegated(k)]);
    }
    ways
}

/// What stands at place k when two are swapped.
fn swapped(a: usize, b: usize, k: usize) -> usize {
    match k {
        _ if k == a => b,
        _ if k == b => a,
        _ => k,
    }
}

fn sign(negative: bool) -> i32 {
    if negative {
        -1
    } else {
        1
    }
}

/// Another Q, with its words asked for by row and column.
fn with_q(pair: &Pair, word: impl Fn(&WorkArea, usize, usize) -> i32) -> Pair {
    let mut other = pair.clone();
    for i in 0..REAL_SIZE {
        (0..REAL_SIZE).for_each(|k| other.set_q(i, k, word(&pair.area, i, k)));
    }
    other
}

fn with_row_negated(mut pair: Pair, k: usize) -> Pair {
    (0..REAL_SIZE).for_each(|j| pair.set_r(k, j, -pair.area.r(k, j)));
    pair
}

fn with_matrix(pair: &Pair, element: impl Fn(&Matrix, usize, usize) -> Complex) -> Pair {
    Pair {
        matrix: Matrix::from_fn(|i, j| element(&pair.matrix, i, j)),
        area: pair.area.clone(),
    }
}

impl Way {
    fn taken(self, pair: &Pair) -> Pair {
        match self {
            Way::QRowsSwapped(a, b) => with_q(pair, |area, i, k| area.q(swapped(a, b, i), k)),
            Way::QColumnsSwapped(a, b) => with_q(pair, |area, i, k| area.q(i, swapped(a, b, k))),
            Way::QTransposed => with_q(pair, |area, i, k| area.q(k, i)),
            Way::QRowNegated(row) => with_q(pair, |area, i, k| sign(i == row) * area.q(i, k)),
            Way::QColumnNegated(column) => {
                with_q(pair, |area, i, k| sign(k == column) * area.q(i, k))
            }
            Way::RRowNegated(k) => with_row_negated(pair.clone(), k),
            Way::BothNegated(k) => with_row_negated(Way::QColumnNegated(k).taken(pair), k),
            Way::AllNegated => {
                let words = pair.area.to_words().map(|word| -word);
                let (matrix, area) = (pair.matrix.clone(), WorkArea::from_words(&words));
                Pair { matrix, area }
            }
            Way::Exchanged => exchanged(pair),
            Way::MatrixRowsSwapped(a, b) => {
                with_matrix(pair, |matrix, i, j| matrix.element(swapped(a, b, i), j))
            }
            Way::RowsSwapped(a, b) => {
                let real = Way::QRowsSwapped(a, b).taken(pair);
                let both = Way::QRowsSwapped(a + ANTENNAS, b + ANTENNAS).taken(&real);
                Way::MatrixRowsSwapped(a, b).taken(&both)
            }
            Way::MatrixTransposed => with_matrix(pair, |matrix, i, j| matrix.element(j, i)),
            Way::MatrixConjugated => with_matrix(pair, |matrix, i, j| {
                let Complex { re, im } = matrix.element(i, j);
                Complex::new(re, im.saturating_neg())
            }),
        }
    }

    /// The number and the answer that are due for a full matrix.
    fn due(self) -> (u8, bool) {
        match self {
            Way::RowsSwapped(..) | Way::BothNegated(15) => (0, true),
            Way::RRowNegated(0..15) | Way::BothNegated(0..15) => (8, false),
            Way::AllNegated | Way::Exchanged => (8, false),
            _ => (0, false),
        }
    }
}

fn exchanged(pair: &Pair) -> Pair {
    let mut words = [0; AREA_WORDS];
    for (row, words) in words.chunks_exact_mut(2 * REAL_SIZE).enumerate() {
        for (column, word) in words.iter_mut().enumerate() {
            *word = pair.area.word(row, (column + REAL_SIZE) % (2 * REAL_SIZE));
        }
    }
    let (matrix, area) = (pair.matrix.clone(), WorkArea::from_words(&words));
    Pair { matrix, area }
}

/// A full matrix that is heard whatever rows are swapped: all its real parts are above 16.
fn full(random: &mut Random) -> Matrix {
    Matrix::from_fn(|_, _| Complex::new(random.between(17, 32_767) as i16, random.part()))
}

#[test]
fn factors_of_full_matrices_in_other_places() {
    let mut compared = Compared::new([Rule::NotTransposed, Rule::InputTransposed]);
    let mut number = 0;
    for way in ways() {
        for _ in 0..MATRICES {
            let pair = Pair::of_board(full(&mut Random::for_case(1421, number)));
            let reply = compared.verify("moved", 1421, number, &way.taken(&pair));
            assert_eq!(
                (reply.number, reply.yes),
                way.due(),
                "{way:?}, case {number}"
            );
            number += 1;
        }
    }
    compared.print_and_require_all_rules("Factors in other places");
}

/// With zeros, equal columns and the like some of them are right factors still.
#[test]
fn factors_of_matrices_of_every_kind_in_other_places() {
    let mut compared = Compared::new([Rule::NotTransposed, Rule::InputTransposed]);
    let mut number = 0;
    for kind in Kind::ALL {
        for way in ways() {
            let pair = Pair::of_board(kind.matrix(&mut Random::for_case(1422, number)));
            compared.verify("moved", 1422, number, &way.taken(&pair));
            number += 1;
        }
    }
    compared.print_and_require_all_rules("Factors of every kind in other places");
    compared.seen.assert_numbers(&[4, 8]);
}

/// An antenna that hears nothing, and that no other hears, leaves 0 on the diagonal of R in its two
/// columns: the row of R and the column of Q may be negated there.
#[test]
fn a_row_with_zero_on_the_diagonal_may_be_negated() {
    let mut compared = Compared::new([Rule::Scale(42)]);
    for antenna in 0..ANTENNAS {
        let full = full(&mut Random::for_case(1423, antenna as u64));
        let quiet = Matrix::from_fn(|i, j| match j {
            _ if j == antenna => Complex::ZERO,
            _ => full.element(i, j),
        });
        let pair = Pair::of_board(quiet);
        for k in [antenna, antenna + ANTENNAS] {
            assert_eq!(pair.area.r(k, k), 0);
            let negated = Way::BothNegated(k).taken(&pair);
            assert!(compared.verify("negated", 1423, k as u64, &negated).yes);
        }
    }
    compared.print_and_require_all_rules("Rows with zero on the diagonal negated");
}
