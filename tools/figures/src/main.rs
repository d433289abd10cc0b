//! Draws the errors of worked matrices against the proved limit, as `errors.svg` in a folder.

mod histogram;
mod plot;
mod sample;
mod svg;

use std::env;
use std::ffi::OsString;
use std::fs;
use std::io;
use std::path::Path;
use std::process::{self, ExitCode};

const PER_KIND: u64 = 1000;

fn main() -> ExitCode {
    let arguments: Vec<OsString> = env::args_os().skip(1).collect();
    let [folder] = arguments.as_slice() else {
        eprintln!("usage: figures FOLDER\n\nWrites errors.svg into the folder.");
        return ExitCode::from(2);
    };
    let path = Path::new(folder).join("errors.svg");
    let picture = plot::draw(&sample::all_kinds(PER_KIND));
    match replace(&path, &picture) {
        Ok(()) => ExitCode::SUCCESS,
        Err(error) => {
            eprintln!("figures: {}: {error}", path.display());
            ExitCode::FAILURE
        }
    }
}

/// Writes a file under another name beside it and renames that, so that a failure leaves an
/// existing file as it was.
fn replace(path: &Path, content: &str) -> io::Result<()> {
    let beside = path.with_extension(format!("svg.{}", process::id()));
    let written = fs::write(&beside, content).and_then(|()| fs::rename(&beside, path));
    if written.is_err() {
        // The first error is the one to report; what is left here is only litter.
        let _ = fs::remove_file(&beside);
    }
    written
}
