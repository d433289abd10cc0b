//! Writes what a program of the product has to write, or a sample input, to standard output.
//!
//! ```text
//! expected cases          what `cases` writes
//! expected whole FILE     what `qr` writes for the input in FILE
//! expected page FILE      what `page` writes for the input in FILE
//! expected sample NAME    the input of `page` that `examples/results/NAME.bin` stores
//! ```

use std::env;
use std::ffi::{OsStr, OsString};
use std::fs;
use std::io::{self, Write};
use std::path::Path;
use std::process::ExitCode;

use reference::listing::listing;
use reference::page::{page, PageSample};
use reference::program::respond;

const USAGE: &str = "usage: expected cases | expected whole FILE | expected page FILE | \
                     expected sample NAME";

fn main() -> ExitCode {
    let written = expected().and_then(|bytes| {
        let written = io::stdout().write_all(&bytes);
        written.map_err(|error| format!("standard output: {error}"))
    });
    match written {
        Ok(()) => ExitCode::SUCCESS,
        Err(message) => {
            eprintln!("{message}");
            ExitCode::FAILURE
        }
    }
}

fn expected() -> Result<Vec<u8>, String> {
    let words: Vec<OsString> = env::args_os().skip(1).collect();
    match words.as_slice() {
        [word] if word == "cases" => Ok(listing().into_bytes()),
        [word, file] if word == "whole" => Ok(respond(&contents(file)?)),
        [word, file] if word == "page" => Ok(page(&contents(file)?)),
        [word, name] if word == "sample" => Ok(sample(name)?.bytes()),
        _ => Err(USAGE.into()),
    }
}

fn sample(name: &OsStr) -> Result<PageSample, String> {
    let mut samples = PageSample::ALL.into_iter();
    let sample = samples.find(|sample| name == sample.name());
    sample.ok_or_else(|| format!("{}: no such sample", Path::new(name).display()))
}

fn contents(file: &OsStr) -> Result<Vec<u8>, String> {
    fs::read(file).map_err(|error| format!("{}: {error}", Path::new(file).display()))
}
