//! The promise of accuracy, held to in every test: of a matrix that Load accepted and that calls in
//! step worked to the end, at the desk or without it, and of one that Whole accepted.

use reference::accuracy::Errors;
use reference::area::WorkArea;
use reference::job::Job;
use reference::matrix::RealMatrix;
use reference::records::parse_matrix;

use super::Both;

/// A matrix that was loaded, and how far it is worked.
#[derive(Clone, Copy)]
pub struct Loaded {
    input: RealMatrix,
    job: Job,
}

impl Loaded {
    /// The matrix of a record that was accepted.
    pub fn new(record: &[u8]) -> Self {
        let matrix = parse_matrix(record).expect("the record was accepted");
        Loaded {
            input: matrix.to_real(),
            job: Job::LOADED,
        }
    }

    /// The matrix of a record, if Load accepts it.
    pub fn accepted(record: &[u8]) -> Option<Self> {
        let matrix = parse_matrix(record).ok()?;
        (!matrix.none_heard()).then(|| Loaded::new(record))
    }

    /// The same after a Run that took one job and answered another. None where the Run was handed
    /// another job than the one last answered: nothing is promised then.
    pub fn after(self, job: Job, next: Job) -> Option<Self> {
        let input = self.input;
        (self.job == job).then_some(Loaded { input, job: next })
    }

    /// Whether the last turn is done.
    pub fn is_worked(self) -> bool {
        self.job.is_finished()
    }

    /// The errors of the R and Q that an area holds of this matrix. Fails the test, naming the
    /// case, unless they are what is promised.
    pub fn require_worked(self, area: &WorkArea, named: impl Fn() -> String) -> Errors {
        let require = |holds: bool, otherwise: &str| assert!(holds, "{otherwise}\n{}", named());
        require(area.is_upper_triangular(), "R is not upper triangular");
        let signs = "one of R's first 15 diagonal words is negative";
        require(area.has_nonnegative_diagonal(), signs);
        let errors = Errors::of(&self.input, area);
        require(errors.are_within(), &format!("inaccurate: {errors:?}"));
        errors
    }
}

impl Both {
    /// Holds a loaded matrix to the promise, once the last turn is done.
    pub(super) fn hold_if_worked(&mut self) {
        if let Some(loaded) = self.loaded.filter(|loaded| loaded.is_worked()) {
            self.hold(loaded);
        }
    }

    /// Holds a matrix to the promise, all of whose turns are done.
    pub(super) fn hold(&mut self, loaded: Loaded) {
        let errors = loaded.require_worked(&self.area(), || self.named());
        self.worked = Some(errors);
    }

    /// The errors of the matrix in the areas, which was worked to the end.
    pub fn errors(&self) -> Errors {
        let Some(errors) = self.worked else {
            panic!("no matrix was worked to the end\n{}", self.named());
        };
        errors
    }
}
