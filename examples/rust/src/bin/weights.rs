//! From a result record to the weights of a modem: reads the record and eight targets, and prints
//! the weights in full.
//!
//! ```text
//! cargo run -p instalments --bin weights RESULT TARGETS
//! ```
//!
//! RESULT is a result record, as the program qr or the example `snapshots` writes it. TARGETS is a
//! text of eight complex numbers as -123+45i, whole numbers in units of 1/32768, with blanks or line
//! ends between them. What follows a '#' is a remark.
use std::env;
use std::ffi::OsString;
use std::fmt::Display;
use std::fs::File;
use std::io::{self, ErrorKind, Read, Write};
use std::path::Path;
use std::process::ExitCode;
use std::str;

use hubqr::{Sample, Weight, ANTENNAS, RESULT_RECORD_BYTES};

/// What stands between numbers.
const BLANKS: &[u8] = b" \t\r\n\x0b\x0c";

/// Room for a text, far more than eight numbers and their remarks need.
const TEXT_ROOM: usize = 1 << 16;

fn main() -> ExitCode {
    let arguments: Vec<OsString> = env::args_os().skip(1).collect();
    let [result, targets] = arguments.as_slice() else {
        eprintln!("usage: weights RESULT TARGETS");
        return ExitCode::from(2);
    };
    let weights = weights(Path::new(result), Path::new(targets));
    let sentence = match weights.map(|weights| print(&weights)) {
        Ok(Ok(())) => return ExitCode::SUCCESS,
        // A reader that stopped early, as `head` does, is no failure.
        Ok(Err(error)) if error.kind() == ErrorKind::BrokenPipe => return ExitCode::SUCCESS,
        Ok(Err(error)) => format!("standard output: {error}"),
        Err(sentence) => sentence,
    };
    eprintln!("weights: {sentence}");
    ExitCode::from(1)
}

/// The weights that a record and targets give, or what is wrong with which file.
fn weights(result: &Path, targets: &Path) -> Result<[Weight; ANTENNAS], String> {
    // One byte more than a record has, so that a file that is too long is seen to be.
    let record = read_bytes(result, RESULT_RECORD_BYTES + 1)?;
    hubqr::weights(&record, read_targets(targets)?).map_err(|refusal| {
        let number = refusal.number();
        fault(result, format!("refused with number {number}: {refusal}"))
    })
}

/// Reads at most `room` bytes of a file.
fn read_bytes(path: &Path, room: usize) -> Result<Vec<u8>, String> {
    let mut bytes = Vec::new();
    let read = File::open(path).and_then(|file| file.take(room as u64).read_to_end(&mut bytes));
    read.map_err(|error| fault(path, error))?;
    Ok(bytes)
}

/// Reads the targets. As in C, the text may hold no zero byte.
fn read_targets(path: &Path) -> Result<[Sample; ANTENNAS], String> {
    let text = read_bytes(path, TEXT_ROOM)?;
    if text.len() == TEXT_ROOM || text.contains(&0) {
        return Err(fault(path, "not a text of less than 64 KiB"));
    }
    let lines = text.split(|&byte| byte == b'\n');
    let numbers = lines.filter_map(|line| line.split(|&byte| byte == b'#').next());
    let words = numbers.flat_map(|line| line.split(|byte| BLANKS.contains(byte)));
    let targets = words.filter(|word| !word.is_empty()).map(target);
    let targets: Option<Vec<Sample>> = targets.collect();
    targets
        .and_then(|targets| targets.try_into().ok())
        .ok_or_else(|| {
            let message = "not eight numbers as -123+45i, with parts from -32768 to 32767";
            fault(path, message)
        })
}

/// The number that a word as -123+45i is, if it is one.
fn target(word: &[u8]) -> Option<Sample> {
    let parts = str::from_utf8(word).ok()?.strip_suffix('i')?;
    let (re, im) = parts.split_at(parts.rfind(['+', '-'])?);
    Some(Sample {
        re: re.parse().ok()?,
        im: im.parse().ok()?,
    })
}

fn print(weights: &[Weight; ANTENNAS]) -> io::Result<()> {
    let mut output = io::stdout().lock();
    for (k, weight) in weights.iter().enumerate() {
        let [re, im] = [weight.re, weight.im].map(in_full);
        writeln!(output, "antenna {k}: {re} {im}")?;
    }
    output.flush()
}

/// A number in the 17 digits that tell it from all others, as %.17g of C prints it.
fn in_full(value: f64) -> String {
    let text = format!("{value:.16e}");
    let (digits, exponent) = text.split_once('e').unwrap_or((&text, "0"));
    let power: i32 = exponent.parse().unwrap_or(0);
    if (-4..17).contains(&power) {
        let decimals = (16 - power) as usize;
        return shortened(&format!("{value:.decimals$}")).to_string();
    }
    let sign = if power < 0 { '-' } else { '+' };
    format!("{}e{sign}{:02}", shortened(digits), power.abs())
}

/// A number's text without the zeros behind its point that say nothing.
fn shortened(text: &str) -> &str {
    match text.contains('.') {
        true => text.trim_end_matches('0').trim_end_matches('.'),
        false => text,
    }
}

/// What is wrong with a file.
fn fault(path: &Path, what: impl Display) -> String {
    format!("{}: {what}", path.display())
}
