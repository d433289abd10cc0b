//! From a radio's samples to a factored matrix: adds up snapshots, writes the matrix record of the
//! sums, factors it, and prints what came of it.
//!
//! ```text
//! cargo run -p instalments --bin snapshots [FILE [MATRIX RESULT]]
//! ```
//!
//! FILE is a text with a snapshot in each line: 16 whole numbers from -32768 to 32767, the real and
//! the imaginary part of what antenna 0 heard, then those of antennas 1 to 7. Empty lines and lines
//! that begin with '#' are skipped. Without an argument it takes the sample snapshots, seen from the
//! top of the repository. MATRIX and RESULT are files to write the two records to.
use std::array;
use std::env;
use std::ffi::OsString;
use std::fmt::Display;
use std::fs::{self, File};
use std::io::{self, ErrorKind, Read, Write};
use std::path::Path;
use std::process::ExitCode;
use std::str;

use hubqr::{Covariance, Refusal, Sample};
use hubqr::{ANTENNAS, AREA_WORDS, MATRIX_RECORD_BYTES, RESULT_RECORD_BYTES};

const SAMPLE: &str = "examples/snapshots/hall.txt";

/// What stands between numbers.
const BLANKS: &[u8] = b" \t\r\x0b\x0c";

/// Room for a text, about twice what 4,096 snapshots need.
const TEXT_ROOM: usize = 1 << 20;

/// How many of R's 16 diagonal words are printed.
const SHOWN: usize = 8;

/// Why the program ends before it has printed everything.
enum Failure {
    /// What is wrong with a file, and with which.
    File(String),
    Output(io::Error),
}

fn main() -> ExitCode {
    let arguments: Vec<OsString> = env::args_os().skip(1).collect();
    let paths: Vec<&Path> = arguments.iter().map(Path::new).collect();
    let outcome = match paths.as_slice() {
        [] => factor(Path::new(SAMPLE), None),
        [path] => factor(path, None),
        [path, matrix, result] => factor(path, Some((matrix, result))),
        _ => {
            eprintln!("usage: snapshots [FILE [MATRIX RESULT]]");
            return ExitCode::from(2);
        }
    };
    let sentence = match outcome {
        Ok(()) => return ExitCode::SUCCESS,
        // A reader that stopped early, as `head` does, is no failure.
        Err(Failure::Output(error)) if error.kind() == ErrorKind::BrokenPipe => {
            return ExitCode::SUCCESS
        }
        Err(Failure::Output(error)) => format!("standard output: {error}"),
        Err(Failure::File(sentence)) => sentence,
    };
    eprintln!("snapshots: {sentence}");
    ExitCode::from(1)
}

/// Goes from a text of snapshots to R and Q, and writes the two records where they are wanted.
fn factor(path: &Path, records: Option<(&Path, &Path)>) -> Result<(), Failure> {
    let covariance = add_up(path, &read_text(path)?)?;
    let mut matrix = [0; MATRIX_RECORD_BYTES];
    covariance
        .write(&mut matrix)
        .map_err(|refusal| refused(path, refusal))?;
    let mut area = [0; AREA_WORDS];
    let mut result = [0; RESULT_RECORD_BYTES];
    let factored =
        hubqr::whole(&matrix, &mut area, &mut result).map_err(|refusal| refused(path, refusal))?;
    if let Some((matrix_path, result_path)) = records {
        fs::write(matrix_path, matrix).map_err(|error| fault(matrix_path, error))?;
        fs::write(result_path, result).map_err(|error| fault(result_path, error))?;
    }
    let mut output = io::stdout().lock();
    writeln!(output, "snapshots added: {}", covariance.count())
        .and_then(|()| print_power(&matrix, &mut output))
        .and_then(|()| print_heard(factored.heard, &mut output))
        .and_then(|()| print_result(&result, &area, &mut output))
        .map_err(Failure::Output)
}

/// Reads a text. As in C, it may hold no zero byte.
fn read_text(path: &Path) -> Result<Vec<u8>, Failure> {
    let mut text = Vec::new();
    File::open(path)
        .and_then(|file| file.take(TEXT_ROOM as u64).read_to_end(&mut text))
        .map_err(|error| fault(path, error))?;
    if text.len() == TEXT_ROOM || text.contains(&0) {
        return Err(fault(path, "not a text of less than 1 MiB"));
    }
    Ok(text)
}

/// Adds up the snapshots of a text, one after the other, as a radio would bring them.
fn add_up(path: &Path, text: &[u8]) -> Result<Covariance, Failure> {
    let mut covariance = Covariance::new();
    for (line, number) in text.split(|&byte| byte == b'\n').zip(1..) {
        let words = line.split(|byte| BLANKS.contains(byte));
        let mut words = words.filter(|word| !word.is_empty()).peekable();
        if words.peek().is_none_or(|word| word.starts_with(b"#")) {
            continue;
        }
        let Some(snapshot) = snapshot(words) else {
            let message = "is not 16 whole numbers from -32768 to 32767";
            return Err(fault(path, format!("line {number} {message}")));
        };
        let added = covariance.add(snapshot);
        added.map_err(|refusal| refused(path, refusal))?;
    }
    Ok(covariance)
}

/// The snapshot that the words of a line are, if they are one.
fn snapshot<'a>(words: impl Iterator<Item = &'a [u8]>) -> Option<[Sample; ANTENNAS]> {
    let parts = words.map(|word| str::from_utf8(word).ok()?.parse().ok());
    let parts: Vec<i16> = parts.collect::<Option<_>>()?;
    let parts: [i16; 2 * ANTENNAS] = parts.try_into().ok()?;
    Some(array::from_fn(|k| Sample {
        re: parts[2 * k],
        im: parts[2 * k + 1],
    }))
}

/// Prints the real parts of the matrix's diagonal, which are from 0 to 32767: half the mean power of
/// each antenna.
fn print_power(matrix: &[u8], output: &mut impl Write) -> io::Result<()> {
    write!(output, "power of antennas 0 to 7, the matrix's diagonal:")?;
    for k in 0..ANTENNAS {
        let place = 1 + 4 * (ANTENNAS * k + k);
        let real = i16::from_be_bytes([matrix[place], matrix[place + 1]]);
        write!(output, " {real}")?;
    }
    writeln!(output)
}

fn print_heard(heard: u8, output: &mut impl Write) -> io::Result<()> {
    write!(output, "heard antennas:")?;
    for antenna in (0..ANTENNAS).filter(|antenna| heard >> antenna & 1 == 1) {
        write!(output, " {antenna}")?;
    }
    writeln!(output)
}

/// Prints what the result record is, and what R's diagonal begins with.
fn print_result(result: &[u8], area: &[i32], output: &mut impl Write) -> io::Result<()> {
    let (kind, length) = (result[0], result.len());
    writeln!(output, "result record: kind {kind:02X}, {length} bytes")?;
    writeln!(
        output,
        "first {SHOWN} diagonal words of R in steps of the 16-bit input:"
    )?;
    for (i, row) in area.chunks(32).take(SHOWN).enumerate() {
        write!(output, " {:9.2}", f64::from(row[i]) / 8192.0)?;
    }
    writeln!(output)?;
    output.flush()
}

/// What is wrong with a file.
fn fault(path: &Path, what: impl Display) -> Failure {
    Failure::File(format!("{}: {what}", path.display()))
}

fn refused(path: &Path, refusal: Refusal) -> Failure {
    let number = refusal.number();
    fault(path, format!("refused with number {number}: {refusal}"))
}
