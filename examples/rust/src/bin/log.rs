//! A hub keeps a log of its days in a buffer of 16,384 bytes: each day it sweeps out what is too old,
//! then adds its heard byte, on every third day a refusal, and its result. At the end it prints what the
//! log holds.
//!
//! ```text
//! cargo run -p instalments --bin log FILE DAYS [OUT]
//! ```
//!
//! FILE is the result record that is added each day; any other file is refused each day, which is
//! printed. DAYS is a whole number. The used bytes of the log are written to OUT, where `record log OUT`
//! lists them.
use std::env;
use std::ffi::{OsStr, OsString};
use std::fs::{self, File};
use std::io::{self, ErrorKind, Read, Write};
use std::process::ExitCode;

use hubqr::{Journal, Refusal, LOG_HEARD, LOG_REFUSAL, LOG_RESULT, RESULT_RECORD_BYTES};

/// Room for seven results, ninety heard bytes and the refusals of thirty days, which is all that stays.
const ROOM: usize = 16_384;

/// 4 October 2024.
const FIRST_DAY: u32 = 20_000;

/// The most digits that DAYS may have.
const MOST_DIGITS: usize = 4;

/// All antennas are heard on even days, and four on odd ones. No antenna is heard in a matrix of every
/// third day.
const HEARD_EVEN: u8 = 0xff;
const HEARD_ODD: u8 = 0x0f;
const REFUSED_EVERY: u32 = 3;

fn main() -> ExitCode {
    let arguments: Vec<OsString> = env::args_os().skip(1).collect();
    let (file, days, out) = match &arguments[..] {
        [file, days] => (file, read_days(days), None),
        [file, days, out] => (file, read_days(days), Some(out)),
        _ => (&OsString::new(), None, None),
    };
    let Some(days) = days else {
        eprintln!("usage: log FILE DAYS [OUT]    DAYS of at most {MOST_DIGITS} digits");
        return ExitCode::from(2);
    };
    let Some(result) = done(file, read(file)) else {
        return ExitCode::from(1);
    };
    let mut buffer = [0; ROOM];
    let mut journal = Journal::new(&mut buffer);
    let mut text = String::new();
    for day in FIRST_DAY..FIRST_DAY + days {
        keep_day(&mut journal, day, &result, &mut text);
    }
    text += &listed(&journal);
    let printed = done("standard output".as_ref(), print(&text)).is_some();
    // The used bytes alone: behind them what was swept may still stand.
    let kept = out.is_none_or(|out| done(out, fs::write(out, journal.bytes())).is_some());
    ExitCode::from(if printed && kept { 0 } else { 1 })
}

/// What was done with a file, or nothing where it could not be, which is said.
fn done<T>(file: &OsStr, outcome: io::Result<T>) -> Option<T> {
    outcome
        .map_err(|error| eprintln!("log: {}: {error}", file.to_string_lossy()))
        .ok()
}

/// Reads the file that is added each day: one byte more than a result record has, if there is one, so
/// that a file that is too long is seen to be.
fn read(file: &OsStr) -> io::Result<Vec<u8>> {
    let mut bytes = Vec::new();
    let most = RESULT_RECORD_BYTES as u64 + 1;
    File::open(file)?.take(most).read_to_end(&mut bytes)?;
    Ok(bytes)
}

/// The number of days that a text is.
fn read_days(text: &OsStr) -> Option<u32> {
    let digits = text.to_str()?;
    let digits_alone = digits.bytes().all(|byte| byte.is_ascii_digit());
    (digits_alone && digits.len() <= MOST_DIGITS).then(|| digits.parse().ok())?
}

/// One day of the hub. The sweep comes first, so that what it frees is used again on the same day.
fn keep_day(journal: &mut Journal, day: u32, result: &[u8], text: &mut String) {
    let heard = match day % 2 {
        0 => HEARD_EVEN,
        _ => HEARD_ODD,
    };
    journal.sweep(day);
    let mut add = |kind, what, body: &[u8]| {
        if let Err(refusal) = journal.add_bytes(kind, day, body) {
            let number = refusal.number();
            *text += &format!("day {day}: {what} refused with {number}: {refusal}\n");
        }
    };
    add(LOG_HEARD, "heard byte", &[heard]);
    if day % REFUSED_EVERY == 0 {
        add(LOG_REFUSAL, "refusal", &[Refusal::NoneHeard.number()]);
    }
    add(LOG_RESULT, "result", result);
}

/// A line for each entry, and how full the log is.
fn listed(journal: &Journal) -> String {
    let line = |entry: hubqr::Entry| {
        let (kind, bytes) = (entry.body.kind(), entry.body.bytes().len());
        format!("{} kind {kind}, {bytes} bytes\n", entry.day)
    };
    let lines: String = journal.entries().map(line).collect();
    let (used, entries) = (journal.used(), journal.entries().count());
    format!("{lines}{used} of {ROOM} bytes used, {entries} entries\n")
}

/// Writes to standard output. A reader that stopped early, as `head` does, is no failure.
fn print(text: &str) -> io::Result<()> {
    let mut output = io::stdout().lock();
    match output
        .write_all(text.as_bytes())
        .and_then(|()| output.flush())
    {
        Err(error) if error.kind() == ErrorKind::BrokenPipe => Ok(()),
        written => written,
    }
}
