//! Results of worked matrices.

use reference::cases::{edges, Kind};
use reference::matrix::Matrix;
use reference::program::respond;
use reference::random::Random;
use reference::records::write_matrix;

use super::compared::Compared;

/// Matrices of each kind.
const MATRICES: u64 = 40;

fn require(compared: &mut Compared, matrix: &Matrix) {
    let result = respond(&write_matrix(matrix));
    assert_eq!(compared.compare(&result).number(), 0);
}

#[test]
fn results_of_every_kind() {
    let mut compared = Compared::default();
    for kind in Kind::ALL {
        for case in 0..MATRICES {
            let mut random = Random::for_case(721, case);
            require(&mut compared, &kind.matrix(&mut random));
        }
    }
    compared.print("Results of matrices of every kind");
}

#[test]
fn results_of_the_edges() {
    let mut compared = Compared::default();
    for matrix in edges() {
        require(&mut compared, &matrix);
    }
    compared.print("Results of the edges");
}
