//! The errors of matrices that the engine worked, in exact whole numbers.

use reference::accuracy::Errors;
use reference::area::WorkArea;
use reference::cases::{edges, Kind};
use reference::matrix::Matrix;
use reference::random::Random;
use reference::records::write_matrix;

/// The largest errors of each matrix of one kind.
pub struct Sample {
    pub name: &'static str,
    pub errors: Vec<Errors>,
}

/// Matrices of every kind, `count` of each, and the edges of the range. A matrix depends on its
/// kind and number alone, so the picture is the same whenever it is drawn.
pub fn all_kinds(count: u64) -> Vec<Sample> {
    let mut samples: Vec<Sample> = Kind::ALL.map(|kind| of_kind(kind, count)).into();
    samples.push(Sample {
        name: "edges",
        errors: edges().iter().map(errors).collect(),
    });
    samples
}

fn of_kind(kind: Kind, count: u64) -> Sample {
    let matrix = |case| kind.matrix(&mut Random::for_case(kind as u64, case));
    Sample {
        name: kind.name(),
        errors: (0..count).map(|case| errors(&matrix(case))).collect(),
    }
}

fn errors(matrix: &Matrix) -> Errors {
    let mut area = [0; hubqr::AREA_WORDS];
    let mut buffer = [0; hubqr::RESULT_RECORD_BYTES];
    hubqr::whole(&write_matrix(matrix), &mut area, &mut buffer)
        .expect("each kind and each edge has an antenna that is heard");
    Errors::of(&matrix.to_real(), &WorkArea::from_words(&area))
}
