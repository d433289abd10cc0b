//! The matrices that no random draw may miss: those at the edges of what Load accepts, and those
//! that lie just beyond.

use super::{alone_at, HIGHEST, LOWEST, QUIETEST};
use crate::matrix::{Complex, Matrix, ANTENNAS};

/// The largest real part on the diagonal that no antenna is heard with.
const HUM: i16 = 16;

/// Matrices that Load accepts, with real parts 17 and 32767 on the diagonal: of all antennas over
/// every pattern, and of each antenna alone.
pub fn edges() -> Vec<Matrix> {
    let mut edges = Vec::new();
    for re in [QUIETEST, HIGHEST] {
        for pattern in patterns() {
            edges.push(pattern.with_diagonal(|_| re));
        }
        for antenna in 0..ANTENNAS {
            for other in others() {
                edges.push(other.with_diagonal_at(antenna, re));
            }
        }
    }
    edges
}

/// Matrices that Load refuses with number 4, however loud they are elsewhere than in the real parts
/// of the diagonal.
pub fn unheard_edges() -> Vec<Matrix> {
    let mut edges = patterns();
    edges.retain(Matrix::none_heard);
    for re in [HUM, -QUIETEST] {
        for pattern in patterns() {
            edges.push(pattern.with_diagonal(|_| re));
        }
    }
    for i in 0..ANTENNAS {
        for j in 0..ANTENNAS {
            edges.extend(unheard_elements(i == j).map(|element| alone_at(i, j, element)));
        }
    }
    for other in others() {
        if !edges.contains(&other) {
            edges.push(other);
        }
    }
    edges
}

/// Zeros, and parts at the ends of the range or next to 0: the same pair everywhere, or with its
/// parts changed over in every second place.
fn patterns() -> Vec<Matrix> {
    let ends = [LOWEST, -HIGHEST, -1, 1, HIGHEST];
    let mut patterns = vec![everywhere(Complex::ZERO)];
    for re in ends {
        for im in ends {
            patterns.push(everywhere(Complex::new(re, im)));
            if re != im {
                patterns.push(in_turn(re, im));
            }
        }
    }
    patterns
}

/// What stands around an antenna that is heard alone: nothing, or parts at the ends of the range.
fn others() -> Vec<Matrix> {
    let highest = everywhere(Complex::new(HIGHEST, HIGHEST));
    vec![
        everywhere(Complex::ZERO),
        everywhere(Complex::new(LOWEST, LOWEST)),
        in_turn(LOWEST, HIGHEST),
        highest.clone().with_diagonal(|_| HUM),
        highest.with_diagonal(|_| LOWEST),
        Matrix::from_fn(|i, j| Complex::new(0, if i == j { HIGHEST } else { 0 })),
    ]
}

/// Elements that stand alone and are not heard.
fn unheard_elements(on_the_diagonal: bool) -> [Complex; 5] {
    let loud = if on_the_diagonal { HUM } else { HIGHEST };
    [
        Complex::new(1, 0),
        Complex::new(0, 1),
        Complex::new(loud, 0),
        Complex::new(loud, HIGHEST),
        Complex::new(LOWEST, LOWEST),
    ]
}

fn everywhere(element: Complex) -> Matrix {
    Matrix::from_fn(|_, _| element)
}

fn in_turn(re: i16, im: i16) -> Matrix {
    Matrix::from_fn(|i, j| {
        if (i + j) % 2 == 0 {
            Complex::new(re, im)
        } else {
            Complex::new(im, re)
        }
    })
}

#[cfg(test)]
mod tests {
    use super::*;
    use crate::records::write_matrix;
    use std::collections::BTreeSet;

    #[test]
    fn load_accepts_the_edges_and_refuses_those_beyond() {
        assert!(edges().iter().all(|matrix| !matrix.none_heard()));
        assert!(unheard_edges().iter().all(Matrix::none_heard));
    }

    #[test]
    fn no_edge_stands_twice() {
        for edges in [edges(), unheard_edges()] {
            let records: BTreeSet<_> = edges.iter().map(write_matrix).collect();
            assert_eq!(records.len(), edges.len());
        }
    }

    #[test]
    fn each_antenna_is_heard_alone_at_an_edge() {
        let heard: BTreeSet<u8> = edges().iter().map(Matrix::heard).collect();
        assert_eq!(heard, [1, 2, 4, 8, 16, 32, 64, 128, 255].into());
    }

    #[test]
    fn the_edges_have_the_loudest_and_the_quietest_matrix() {
        let loudest = everywhere(Complex::new(HIGHEST, HIGHEST));
        let lowest = everywhere(Complex::new(LOWEST, LOWEST));
        assert!(edges().contains(&loudest));
        assert!(edges().contains(&lowest.clone().with_diagonal_at(3, QUIETEST)));
        assert!(edges().contains(&alone_at(7, 7, Complex::new(17, 0))));
        assert!(unheard_edges().contains(&lowest));
        assert!(unheard_edges().contains(&alone_at(7, 7, Complex::new(16, 0))));
    }
}
