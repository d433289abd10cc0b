//! Whether results are right for a matrix, whoever wrote them: reads a matrix record and result
//! records, and prints yes or no for each.
//!
//! ```text
//! cargo run -p instalments --bin verify MATRIX RESULT..
//! ```
//!
//! The exit status is 0 when all get yes, 1 when one gets no, and 2 when one gets neither, since it is
//! refused or cannot be read. A script can so go by the status alone.
use std::env;
use std::ffi::{OsStr, OsString};
use std::fs::File;
use std::io::{self, Read, Write};
use std::process::ExitCode;

use hubqr::RESULT_RECORD_BYTES;

/// The exit statuses. Of several results the worst counts.
const YES: u8 = 0;
const NO: u8 = 1;
const NEITHER: u8 = 2;

fn main() -> ExitCode {
    let arguments: Vec<OsString> = env::args_os().skip(1).collect();
    let status = match arguments.split_first() {
        Some((matrix, results)) if !results.is_empty() => verify(matrix, results),
        _ => {
            eprintln!("usage: verify MATRIX RESULT..");
            return ExitCode::from(NEITHER);
        }
    };
    ExitCode::from(status.unwrap_or_else(|error| {
        eprintln!("verify: standard output: {error}");
        NEITHER
    }))
}

/// Prints a line for each result, and answers the exit status.
fn verify(matrix: &OsStr, results: &[OsString]) -> io::Result<u8> {
    let mut output = io::stdout().lock();
    let Some(matrix) = read(matrix) else {
        return Ok(NEITHER);
    };
    let mut status = YES;
    for file in results {
        let verdict = match read(file) {
            Some(result) => print(&mut output, file, hubqr::verify(&matrix, &result))?,
            None => NEITHER,
        };
        status = status.max(verdict);
    }
    output.flush()?;
    Ok(status)
}

/// Prints the verdict on one result, and answers the exit status that it alone would have.
fn print(
    output: &mut impl Write,
    file: &OsStr,
    verdict: Result<bool, hubqr::Refusal>,
) -> io::Result<u8> {
    output.write_all(file.as_encoded_bytes())?;
    match verdict {
        Ok(true) => writeln!(output, ": yes").map(|()| YES),
        Ok(false) => writeln!(output, ": no").map(|()| NO),
        Err(refusal) => {
            let number = refusal.number();
            writeln!(output, ": refused with number {number}: {refusal}").map(|()| NEITHER)
        }
    }
}

/// Reads a file, and one byte more than the longest record has at most, so that one that is too long is
/// seen to be. Says so if it cannot be read.
fn read(file: &OsStr) -> Option<Vec<u8>> {
    let mut bytes = Vec::new();
    let room = RESULT_RECORD_BYTES as u64 + 1;
    let read = File::open(file).and_then(|opened| opened.take(room).read_to_end(&mut bytes));
    if read.is_err() {
        eprintln!("verify: {} cannot be read", file.to_string_lossy());
        return None;
    }
    Some(bytes)
}
