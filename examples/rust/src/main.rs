//! Factors a matrix record in instalments of 7 rotations, with other work between them, and prints R.
//! Each instalment says how far the job is, and how many of the rotations were truly made: those that
//! have nothing to clear are skipped.
//!
//! ```text
//! cargo run -p instalments [RECORD]
//! ```
//!
//! Without an argument it takes the sample covariance, seen from the top of the repository.
use std::env;
use std::ffi::OsString;
use std::fs::File;
use std::io::{self, ErrorKind, Read, Write};
use std::path::Path;
use std::process::ExitCode;

use hubqr::{Clamps, Job, Refusal, AREA_WORDS, MATRIX_RECORD_BYTES, RESULT_RECORD_BYTES, TURNS};

const SAMPLE: &str = "examples/records/hermitian.bin";
const INSTALMENT: u16 = 7;

/// Why the program ends before it has printed R.
enum Failure {
    Record(io::Error),
    Refused(Refusal),
    Output(io::Error),
}

impl From<Refusal> for Failure {
    fn from(refusal: Refusal) -> Failure {
        Failure::Refused(refusal)
    }
}

fn main() -> ExitCode {
    let arguments: Vec<OsString> = env::args_os().skip(1).collect();
    let path = match arguments.as_slice() {
        [] => Path::new(SAMPLE),
        [path] => Path::new(path),
        _ => {
            eprintln!("usage: instalments [RECORD]");
            return ExitCode::from(2);
        }
    };
    match factor(path, &mut io::stdout().lock()) {
        Ok(()) => ExitCode::SUCCESS,
        // A reader that stopped early, as `head` does, is no failure.
        Err(Failure::Output(error)) if error.kind() == ErrorKind::BrokenPipe => ExitCode::SUCCESS,
        Err(failure) => {
            eprintln!("instalments: {}", described(path, &failure));
            ExitCode::from(1)
        }
    }
}

fn factor(path: &Path, output: &mut impl Write) -> Result<(), Failure> {
    let record = read_record(path).map_err(Failure::Record)?;
    let mut area = [0; AREA_WORDS];
    let loaded = hubqr::load(&record, &mut area)?;
    print_heard(loaded.heard, output).map_err(Failure::Output)?;
    let job = work(loaded.job, &mut area, output)?;
    let mut result = [0; RESULT_RECORD_BYTES];
    hubqr::fetch(job, &area, &mut result)?;
    print_result(&result, &area, output).map_err(Failure::Output)
}

/// Reads one byte more than a record has, if there is one, so that Load sees a file that is too long.
fn read_record(path: &Path) -> io::Result<Vec<u8>> {
    let mut record = Vec::new();
    let most = MATRIX_RECORD_BYTES as u64 + 1;
    File::open(path)?.take(most).read_to_end(&mut record)?;
    Ok(record)
}

/// Does all turns in instalments and answers the job at the end.
fn work(mut job: Job, area: &mut [i32], output: &mut impl Write) -> Result<Job, Failure> {
    let mut rounds = 0;
    while !job.is_finished() {
        let progress = hubqr::run(job, INSTALMENT, area)?;
        job = progress.job;
        other_work(&mut rounds);
        let (Job { turn, made }, Clamps { r, q }) = (job, progress.clamps);
        writeln!(
            output,
            "turn {turn:3} of {TURNS}, made {made:3}, count {}, clamps {r} in R, {q} in Q, \
             rounds of other work {rounds}",
            progress.count
        )
        .map_err(Failure::Output)?;
    }
    Ok(job)
}

/// Stands for what a hub does between instalments: listening, answering, switching.
fn other_work(rounds: &mut u32) {
    *rounds += 1;
}

fn print_heard(heard: u8, output: &mut impl Write) -> io::Result<()> {
    write!(output, "heard antennas:")?;
    for antenna in (0..8).filter(|antenna| heard >> antenna & 1 == 1) {
        write!(output, " {antenna}")?;
    }
    writeln!(output)
}

/// Prints what the result record is, and R in steps of the 16-bit input.
fn print_result(result: &[u8], area: &[i32], output: &mut impl Write) -> io::Result<()> {
    let (kind, length) = (result[0], result.len());
    writeln!(output, "result record: kind {kind:02X}, {length} bytes")?;
    writeln!(output, "R in steps of the 16-bit input:")?;
    for row in area.chunks(32) {
        for &word in &row[..16] {
            write!(output, " {:9.2}", f64::from(word) / 8192.0)?;
        }
        writeln!(output)?;
    }
    output.flush()
}

fn described(path: &Path, failure: &Failure) -> String {
    let path = path.display();
    match failure {
        Failure::Record(error) => format!("{path}: {error}"),
        Failure::Refused(refusal) => {
            let number = refusal.number();
            format!("{path}: refused with number {number}: {refusal}")
        }
        Failure::Output(error) => format!("standard output: {error}"),
    }
}
