//! Test matrices of different kinds. Load accepts every one of them, but those of
//! [`unheard_edges`].

mod edges;
mod zeros;

pub use edges::{edges, unheard_edges};

use crate::covariance::{add, Sums};
use crate::matrix::{Complex, Matrix, ANTENNAS};
use crate::random::Random;

const LOWEST: i16 = i16::MIN;
const HIGHEST: i16 = i16::MAX;

/// The least real part on the diagonal that an antenna is heard with.
const QUIETEST: i16 = 17;

/// What a random matrix is like.
#[derive(Debug, Clone, Copy, PartialEq, Eq)]
pub enum Kind {
    /// Every part anything of 16 bits.
    FullRange,
    /// Every part at an end of the range.
    Extremes,
    /// Every part from -2 to 2, but for one antenna that is just heard.
    Tiny,
    /// One element other than zero: that of an antenna with itself.
    OneElement,
    /// The product of a column and a row.
    RankOne,
    /// A Hermitian covariance of random snapshots.
    Covariance,
    /// Most elements zero.
    Sparse,
    /// The column of one antenna hums, or its row and column do.
    Unplugged,
    /// Rows and columns of very different size.
    WideSpread,
    /// Orthogonal columns, all of one length.
    Orthogonal,
    /// No imaginary parts, or no real ones but that of one antenna.
    OneSided,
    /// Zero under the diagonal.
    Triangular,
    /// One column stands several times.
    RepeatedColumns,
    /// Every part a power of two, or its negative.
    PowersOfTwo,
    /// Zero off the diagonal.
    Diagonal,
    /// Half of the antennas have nothing in their rows, in their columns, or in both.
    HalfEmpty,
    /// Antennas in groups, with zeros between one group and another.
    BlockDiagonal,
    /// Zero further from the diagonal than a few places.
    Banded,
    /// Zero under the diagonal, and no imaginary parts.
    RealTriangular,
}

impl Kind {
    pub const ALL: [Kind; 19] = [
        Kind::FullRange,
        Kind::Extremes,
        Kind::Tiny,
        Kind::OneElement,
        Kind::RankOne,
        Kind::Covariance,
        Kind::Sparse,
        Kind::Unplugged,
        Kind::WideSpread,
        Kind::Orthogonal,
        Kind::OneSided,
        Kind::Triangular,
        Kind::RepeatedColumns,
        Kind::PowersOfTwo,
        Kind::Diagonal,
        Kind::HalfEmpty,
        Kind::BlockDiagonal,
        Kind::Banded,
        Kind::RealTriangular,
    ];

    /// Those with zeros in whole regions, so that many of their turns have nothing to clear.
    pub const WITH_ZEROS: [Kind; 5] = [
        Kind::Diagonal,
        Kind::HalfEmpty,
        Kind::BlockDiagonal,
        Kind::Banded,
        Kind::RealTriangular,
    ];

    pub fn name(self) -> &'static str {
        match self {
            Kind::FullRange => "full range",
            Kind::Extremes => "extremes",
            Kind::Tiny => "tiny",
            Kind::OneElement => "one element",
            Kind::RankOne => "rank one",
            Kind::Covariance => "covariance",
            Kind::Sparse => "sparse",
            Kind::Unplugged => "unplugged antenna",
            Kind::WideSpread => "wide spread",
            Kind::Orthogonal => "orthogonal",
            Kind::OneSided => "one-sided",
            Kind::Triangular => "triangular",
            Kind::RepeatedColumns => "repeated columns",
            Kind::PowersOfTwo => "powers of two",
            Kind::Diagonal => "diagonal",
            Kind::HalfEmpty => "half-empty",
            Kind::BlockDiagonal => "block diagonal",
            Kind::Banded => "banded",
            Kind::RealTriangular => "real triangular",
        }
    }

    /// A random matrix of this kind. One that no antenna is heard with is thrown away, since Load
    /// refuses it; no kind draws many of those.
    pub fn matrix(self, random: &mut Random) -> Matrix {
        loop {
            let matrix = self.draw(random);
            if !matrix.none_heard() {
                return matrix;
            }
        }
    }

    fn draw(self, random: &mut Random) -> Matrix {
        match self {
            Kind::FullRange => Matrix::from_fn(|_, _| any(random)),
            Kind::Extremes => from_parts(|| random.choose(&[LOWEST, HIGHEST])),
            Kind::Tiny => tiny(random),
            Kind::OneElement => one_element(random),
            Kind::RankOne => rank_one(random),
            Kind::Covariance => covariance(random),
            Kind::Sparse => sparse(random),
            Kind::Unplugged => unplugged(random),
            Kind::WideSpread => wide_spread(random),
            Kind::Orthogonal => orthogonal(random),
            Kind::OneSided => one_sided(random),
            Kind::Triangular => triangular(random),
            Kind::RepeatedColumns => repeated_columns(random),
            Kind::PowersOfTwo => from_parts(|| power_of_two(random)),
            Kind::Diagonal => zeros::diagonal(random),
            Kind::HalfEmpty => zeros::half_empty(random),
            Kind::BlockDiagonal => zeros::block_diagonal(random),
            Kind::Banded => zeros::banded(random),
            Kind::RealTriangular => zeros::real_triangular(random),
        }
    }
}

fn any(random: &mut Random) -> Complex {
    Complex::new(random.part(), random.part())
}

fn from_parts(mut part: impl FnMut() -> i16) -> Matrix {
    Matrix::from_fn(|_, _| Complex::new(part(), part()))
}

fn alone_at(row: usize, column: usize, element: Complex) -> Matrix {
    Matrix::from_fn(|i, j| {
        if (i, j) == (row, column) {
            element
        } else {
            Complex::ZERO
        }
    })
}

/// A real part on the diagonal that an antenna is heard with.
fn heard_part(random: &mut Random) -> i16 {
    let any = random.between(QUIETEST.into(), HIGHEST.into()) as i16;
    random.choose(&[QUIETEST, QUIETEST + 1, any, HIGHEST])
}

fn tiny(random: &mut Random) -> Matrix {
    let (antenna, above) = (random.below(ANTENNAS), random.below(4) as i16);
    from_parts(|| random.between(-2, 2) as i16).with_diagonal_at(antenna, QUIETEST + above)
}

fn one_element(random: &mut Random) -> Matrix {
    let antenna = random.below(ANTENNAS);
    let imaginary = [random.part(), 0, 1, -1, LOWEST, HIGHEST];
    let element = Complex::new(heard_part(random), random.choose(&imaginary));
    alone_at(antenna, antenna, element)
}

fn rank_one(random: &mut Random) -> Matrix {
    // Parts of these sizes keep every product within 16 bits, so the rank is exact. The first pair
    // is little above hum, and the last nearly fills the range.
    let limits = random.choose(&[(1, 25), (10, 10), (127, 127)]);
    let mut vector = |limit: i64| -> [(i64, i64); ANTENNAS] {
        std::array::from_fn(|_| (random.between(-limit, limit), random.between(-limit, limit)))
    };
    let (column, row) = (vector(limits.0), vector(limits.1));
    Matrix::from_fn(|i, j| {
        let ((a, b), (c, d)) = (column[i], row[j]);
        Complex::new((a * c - b * d) as i16, (a * d + b * c) as i16)
    })
}

/// The matrix of a few snapshots, with antennas of different strength. The weakest are about as loud
/// as hum.
fn covariance(random: &mut Random) -> Matrix {
    let count = random.between(1, 12);
    let strength: [u32; ANTENNAS] = std::array::from_fn(|_| random.below(6) as u32);
    let mut sums = Sums::NONE;
    for _ in 0..count {
        let snapshot = strength.map(|shift| {
            let sample = any(random);
            Complex::new(sample.re >> shift, sample.im >> shift)
        });
        sums = add(&snapshot, &sums).sums;
    }
    sums.matrix()
}

fn sparse(random: &mut Random) -> Matrix {
    let rarity = random.choose(&[4, 8, 16]);
    let matrix = Matrix::from_fn(|_, _| {
        if random.one_in(rarity) {
            any(random)
        } else {
            Complex::ZERO
        }
    });
    matrix.with_diagonal_at(random.below(ANTENNAS), heard_part(random))
}

fn unplugged(random: &mut Random) -> Matrix {
    let (antenna, row_too) = (random.below(ANTENNAS), random.one_in(2));
    // A loose plug leaves parts of one or two, and a pulled one nothing.
    let loudest = random.between(0, 2);
    Matrix::from_fn(|i, j| {
        if j == antenna || (row_too && i == antenna) {
            let mut hum = || random.between(-loudest, loudest) as i16;
            Complex::new(hum(), hum())
        } else {
            any(random)
        }
    })
}

fn wide_spread(random: &mut Random) -> Matrix {
    let mut shifts = || -> [u32; ANTENNAS] { std::array::from_fn(|_| random.below(9) as u32) };
    let (rows, columns) = (shifts(), shifts());
    Matrix::from_fn(|i, j| {
        let (element, shift) = (any(random), rows[i] + columns[j]);
        // A shift of 16 would be too far for 16 bits; 15 leaves the sign alone.
        let shift = shift.min(15);
        Complex::new(element.re >> shift, element.im >> shift)
    })
}

/// A Walsh matrix with signs of its own for rows and columns, times one complex number.
fn orthogonal(random: &mut Random) -> Matrix {
    let size = random.choose(&[QUIETEST, 181, 32766, HIGHEST]);
    let (rows, columns, turned) = (random.byte(), random.byte(), random.one_in(2));
    Matrix::from_fn(|i, j| {
        let signs = (i & j).count_ones() as u8 ^ (rows >> i) ^ (columns >> j);
        let part = if signs & 1 == 0 { size } else { -size };
        Complex::new(part, if turned { -part } else { part })
    })
}

fn one_sided(random: &mut Random) -> Matrix {
    if random.one_in(2) {
        Matrix::from_fn(|_, _| Complex::new(random.part(), 0))
    } else {
        let imaginary = Matrix::from_fn(|_, _| Complex::new(0, random.part()));
        imaginary.with_diagonal_at(random.below(ANTENNAS), heard_part(random))
    }
}

fn triangular(random: &mut Random) -> Matrix {
    let real_diagonal = random.one_in(2);
    Matrix::from_fn(|i, j| {
        if i > j {
            Complex::ZERO
        } else if i == j && real_diagonal {
            Complex::new(random.part(), 0)
        } else {
            any(random)
        }
    })
}

fn repeated_columns(random: &mut Random) -> Matrix {
    let source: [usize; ANTENNAS] = std::array::from_fn(|j| random.below(j + 1));
    let drawn = Kind::FullRange.matrix(random);
    Matrix::from_fn(|i, j| drawn.element(i, source[j]))
}

fn power_of_two(random: &mut Random) -> i16 {
    let exponent = random.below(16);
    // 2^15 exists in 16 bits only as a negative number.
    if exponent == 15 || random.one_in(2) {
        (-1 << exponent) as i16
    } else {
        1 << exponent
    }
}

#[cfg(test)]
mod tests {
    use super::*;

    #[test]
    fn most_draws_of_every_kind_are_heard() {
        for kind in Kind::ALL {
            let mut random = Random::new(5);
            let heard = (0..1000).filter(|_| !kind.draw(&mut random).none_heard());
            let heard = heard.count();
            assert!(heard > 500, "{}: {heard} of 1000", kind.name());
        }
    }

    #[test]
    fn a_case_can_be_made_again() {
        for kind in Kind::ALL {
            let make = || kind.matrix(&mut Random::for_case(11, 3));
            assert_eq!(make(), make());
        }
    }

    #[test]
    fn a_covariance_is_hermitian() {
        let matrix = covariance(&mut Random::new(2));
        for i in 0..ANTENNAS {
            for j in 0..ANTENNAS {
                let (a, b) = (matrix.element(i, j), matrix.element(j, i));
                assert_eq!((a.re, a.im), (b.re, -b.im));
            }
        }
    }

    #[test]
    fn an_unplugged_antenna_is_not_heard_and_leaves_the_others() {
        let mut heard = 0;
        for case in 0..100 {
            let matrix = Kind::Unplugged.matrix(&mut Random::for_case(3, case));
            assert_ne!(matrix.heard(), 255);
            heard |= matrix.heard();
        }
        assert_eq!(heard, 255);
    }

    #[test]
    fn tiny_matrices_have_one_antenna_that_is_just_heard() {
        for case in 0..100 {
            let matrix = Kind::Tiny.matrix(&mut Random::for_case(6, case));
            assert!(matrix.heard().is_power_of_two());
            let parts = matrix.to_real();
            let large = parts.iter().flatten().filter(|part| part.abs() > 2);
            // One element stands twice in the matrix made real.
            let large: Vec<i32> = large.copied().collect();
            assert!(large.len() == 2 && (17..=20).contains(&large[0]));
        }
    }

    #[test]
    fn orthogonal_columns_are_orthogonal() {
        let real = orthogonal(&mut Random::new(4)).to_real();
        for i in 0..16 {
            for j in 0..i {
                let sum: i64 = real
                    .iter()
                    .map(|row| i64::from(row[i]) * i64::from(row[j]))
                    .sum();
                assert_eq!(sum, 0);
            }
        }
    }
}
