//! `record pack`: a matrix record from a text.
use std::ffi::OsStr;

use hubqr::Refusal;

use crate::failure::Failure;
use crate::matrix::Matrix;
use crate::refusal::refused_with;
use crate::{files, show, text, Report};

pub fn pack(input: &OsStr, output: &OsStr) -> Result<Report, Failure> {
    let matrix = files::read_text(input, "8 by 8 matrix", text::parse)?;
    let record = matrix.to_record();
    let mut report = if files::is_standard(output) {
        Report::record(record)
    } else if !files::is_standard(input) && files::same_file(input, output) {
        let message = "the input and the output are the same file";
        return Err(files::named(output, message));
    } else {
        files::replace(output, &record)?;
        Report::text(confirmation(output, &matrix), true)
    };
    if matrix.none_heard() {
        report.remark = Some(refused_with(Refusal::NoneHeard));
    }
    Ok(report)
}

fn confirmation(output: &OsStr, matrix: &Matrix) -> String {
    let antennas = show::antennas(matrix.heard());
    format!("{}: matrix record, {antennas}\n", output.to_string_lossy())
}
