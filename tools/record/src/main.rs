//! `record`: makes, shows, checks and verifies the records of the eight-antenna QR engine, solves for
//! weights and lists logs.
mod arguments;
mod check;
mod complex;
mod date;
mod decimal;
mod entries;
mod factors;
mod failure;
mod figures;
mod files;
mod help;
mod log;
mod matrix;
mod numbers;
mod pack;
mod records;
mod refusal;
mod show;
mod standard_output;
mod targets;
mod text;
mod verify;
mod weights;

use std::env;
use std::io::{self, Write};
use std::process::ExitCode;

use arguments::Command;
use failure::Failure;

/// The exit status that says that the command line is wrong.
const USAGE_STATUS: u8 = 2;

/// What a command has for standard output.
pub enum Output {
    /// For people, who may stop reading where they like.
    Text(String),
    /// A record, which is worth nothing unless all of it arrives.
    Record(Vec<u8>),
}

/// What a command has to say: its output, a remark for standard error, and whether what it looked at
/// is in order.
pub struct Report {
    pub output: Output,
    pub remark: Option<String>,
    pub in_order: bool,
}

impl Report {
    pub fn text(text: impl Into<String>, in_order: bool) -> Report {
        Report {
            output: Output::Text(text.into()),
            remark: None,
            in_order,
        }
    }

    pub fn record(bytes: Vec<u8>) -> Report {
        Report {
            output: Output::Record(bytes),
            remark: None,
            in_order: true,
        }
    }
}

fn main() -> ExitCode {
    let command = Command::parse(env::args_os().skip(1));
    let undone = command.as_ref().map_or(USAGE_STATUS, Command::undone);
    let status = match command.and_then(perform).and_then(deliver) {
        Ok(Some(true)) => 0,
        Ok(Some(false)) => 1,
        Ok(None) => undone,
        Err(failure) => {
            say(&failure.to_string());
            match failure {
                Failure::Usage(_) => USAGE_STATUS,
                Failure::Input(_) => undone,
            }
        }
    };
    ExitCode::from(status)
}

fn perform(command: Command) -> Result<Report, Failure> {
    match command {
        Command::Help(text) => Ok(Report::text(text, true)),
        Command::Version => Ok(Report::text(help::VERSION, true)),
        Command::Pack { text, record } => pack::pack(&text, &record),
        Command::Show { file } => show::show(&file),
        Command::Check { matrix, result } => check::check(&matrix, &result),
        Command::Verify { matrix, result } => verify::verify(&matrix, &result),
        Command::Weights { result, targets } => weights::weights(&result, &targets),
        Command::Log { file } => log::log(&file),
    }
}

/// Writes the report, and answers whether all is in order, or nothing where nobody read it to its end.
fn deliver(report: Report) -> Result<Option<bool>, Failure> {
    let arrived = standard_output::write(&report.output)?;
    if let Some(remark) = report.remark {
        say(&remark);
    }
    Ok(arrived.then_some(report.in_order))
}

/// Writes a line to standard error. Where that fails there is nobody left to tell.
fn say(message: &str) {
    let _ = writeln!(io::stderr(), "record: {message}");
}
