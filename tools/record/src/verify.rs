//! `record verify`: the engine's verdict on a result, whoever wrote it.
use std::ffi::OsStr;

use hubqr::{Refusal, AREA_WORDS};

use crate::failure::Failure;
use crate::records::{self, refused_in_result, wrong_frame};
use crate::refusal::refused_with;
use crate::{files, Report};

pub fn verify(matrix: &OsStr, result: &OsStr) -> Result<Report, Failure> {
    files::not_both_standard(matrix, result)?;
    let [matrix_bytes, result_bytes] = [records::read_bytes(matrix)?, records::read_bytes(result)?];
    match hubqr::verify(&matrix_bytes, &result_bytes) {
        Ok(yes) => Ok(Report::text(verdict_text(Ok(yes)), yes)),
        Err(refusal) if is_refused(&matrix_bytes) => {
            let what = wrong_frame(&matrix_bytes, &records::MATRIX);
            let what = what.map_or(String::new(), |what| what + ": ");
            Err(files::named(matrix, what + &refused_with(refusal)))
        }
        Err(refusal) => {
            let (what, why) = (refused_in_result(&result_bytes), refused_with(refusal));
            Err(files::named(result, format!("{what}: {why}")))
        }
    }
}

/// Whether it is the matrix record that the engine refuses. Load tests it in the same way, and all its
/// tests come before those of the result.
fn is_refused(matrix: &[u8]) -> bool {
    hubqr::load(matrix, &mut [0; AREA_WORDS]).is_err()
}

/// A verdict as a line.
pub fn verdict_text(verdict: Result<bool, Refusal>) -> String {
    match verdict {
        Ok(true) => "yes: Q times R and the rows of Q are within their limits\n".into(),
        Ok(false) => "no: Q times R or the rows of Q are outside their limits\n".into(),
        Err(refusal) => format!("neither yes nor no: {}\n", refused_with(refusal)),
    }
}
