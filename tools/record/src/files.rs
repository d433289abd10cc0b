//! Reading with a limit, and writing so that a failure leaves an existing file as it was.
use std::ffi::{OsStr, OsString};
use std::fmt::Display;
use std::fs::{self, File, OpenOptions, Permissions};
use std::io::{self, ErrorKind, Read, Write};
use std::path::{Path, PathBuf};
use std::process;

use crate::failure::Failure;
use crate::numbers::Fault;

/// Far more than 64 numbers and their remarks need.
const MOST_TEXT: usize = 1 << 20;

/// Whether a file name stands for standard input or output.
pub fn is_standard(file: &OsStr) -> bool {
    file == "-"
}

/// A file's name in a message.
pub fn shown(file: &OsStr) -> String {
    if is_standard(file) {
        "standard input".into()
    } else {
        file.to_string_lossy().into_owned()
    }
}

/// What is wrong with a file.
pub fn named(file: &OsStr, message: impl Display) -> Failure {
    Failure::Input(format!("{}: {message}", shown(file)))
}

/// Says so where both files of a command are to come from standard input.
pub fn not_both_standard(one: &OsStr, other: &OsStr) -> Result<(), Failure> {
    if is_standard(one) && is_standard(other) {
        let message = "only one of the two files can come from standard input";
        return Err(Failure::Usage(message.into()));
    }
    Ok(())
}

/// What a text of numbers describes, which is too long to be what is wanted above 1 MiB.
pub fn read_text<T>(
    file: &OsStr,
    wanted: &str,
    parse: fn(&str) -> Result<T, Fault>,
) -> Result<T, Failure> {
    let bytes = read_up_to(file, MOST_TEXT + 1)?;
    if bytes.len() > MOST_TEXT {
        return Err(named(
            file,
            format!("longer than 1 MiB, which is no {wanted}"),
        ));
    }
    let text = String::from_utf8(bytes).map_err(|error| {
        let valid = error.utf8_error().valid_up_to();
        named(file, format!("no text: byte {valid} is not UTF-8"))
    })?;
    parse(&text).map_err(|fault| named(file, fault))
}

/// A file's first bytes, at most `limit`, or all of them if there are fewer.
pub fn read_up_to(file: &OsStr, limit: usize) -> Result<Vec<u8>, Failure> {
    let mut bytes = Vec::new();
    let read = if is_standard(file) {
        take(io::stdin().lock(), limit, &mut bytes)
    } else {
        File::open(file).and_then(|opened| take(opened, limit, &mut bytes))
    };
    match read {
        Ok(_) => Ok(bytes),
        Err(error) => Err(named(file, error)),
    }
}

fn take(source: impl Read, limit: usize, bytes: &mut Vec<u8>) -> io::Result<usize> {
    source.take(limit as u64).read_to_end(bytes)
}

/// Writes a file under another name beside it and renames that, so that the file is either as
/// before or complete. An existing file has to be a regular one that may be written, and its
/// permissions stay.
pub fn replace(file: &OsStr, bytes: &[u8]) -> Result<(), Failure> {
    let permissions = replaceable(file)?;
    let target = Path::new(file);
    let beside = name_beside(target);
    let written = write_new(&beside, bytes, permissions);
    written
        .and_then(|()| fs::rename(&beside, target))
        .map_err(|error| {
            // The first error is the one to report; what is left here is only litter.
            if error.kind() != ErrorKind::AlreadyExists {
                let _ = fs::remove_file(&beside);
            }
            named(file, error)
        })
}

/// Whether two names lead to the same existing file.
pub fn same_file(one: &OsStr, other: &OsStr) -> bool {
    match (fs::canonicalize(one), fs::canonicalize(other)) {
        (Ok(one), Ok(other)) => one == other,
        _ => false,
    }
}

/// The permissions of a file that may be replaced, or none where there is no file yet.
fn replaceable(file: &OsStr) -> Result<Option<Permissions>, Failure> {
    // Links are not followed: what stands behind them is not to be replaced by accident.
    let found = match fs::symlink_metadata(file) {
        Ok(found) => found,
        Err(error) if error.kind() == ErrorKind::NotFound => return Ok(None),
        Err(error) => return Err(named(file, error)),
    };
    if !found.is_file() {
        let message = "not a regular file; '-' stands for standard output";
        return Err(named(file, message));
    }
    if found.permissions().readonly() {
        return Err(named(file, "read-only"));
    }
    // Opening changes nothing, and fails where the file is not ours to write.
    let opened = OpenOptions::new().write(true).open(file);
    opened.map_err(|error| named(file, error))?;
    Ok(Some(found.permissions()))
}

fn write_new(file: &Path, bytes: &[u8], permissions: Option<Permissions>) -> io::Result<()> {
    let mut new = OpenOptions::new().write(true).create_new(true).open(file)?;
    if let Some(permissions) = permissions {
        new.set_permissions(permissions)?;
    }
    new.write_all(bytes)?;
    new.sync_all()
}

/// A hidden name in the target's folder that no other process uses.
fn name_beside(target: &Path) -> PathBuf {
    let mut name = OsString::from(".");
    name.push(target.file_name().unwrap_or_default());
    name.push(format!(".{}", process::id()));
    target.with_file_name(name)
}
