//! Which record a file holds.
use std::ffi::OsStr;

use hubqr::Refusal;

use crate::factors::{self, Factors};
use crate::failure::Failure;
use crate::files;
use crate::matrix::{self, Matrix};
use crate::refusal::refused_with;

/// A kind of record that a command takes.
pub struct Kind {
    name: &'static str,
    byte: u8,
    bytes: usize,
}

pub const MATRIX: Kind = Kind {
    name: "a matrix",
    byte: matrix::KIND,
    bytes: matrix::BYTES,
};

pub const RESULT: Kind = Kind {
    name: "a result",
    byte: factors::KIND,
    bytes: factors::BYTES,
};

pub const REFUSAL_KIND: u8 = 3;
pub const REFUSAL_BYTES: usize = 2;

pub enum Record {
    Matrix(Box<Matrix>),
    Result(Box<Factors>),
    Refusal(u8),
}

impl Record {
    pub fn read(file: &OsStr) -> Result<Record, Failure> {
        Record::parse(file, &read_bytes(file)?)
    }

    /// The record that a file's bytes are.
    pub fn parse(file: &OsStr, bytes: &[u8]) -> Result<Record, Failure> {
        Record::from_bytes(bytes).map_err(|message| files::named(file, message))
    }

    fn from_bytes(bytes: &[u8]) -> Result<Record, String> {
        match bytes.first() {
            None => Err(format!("empty: {}", refused_with(Refusal::WrongKind))),
            Some(&matrix::KIND) => match bytes.try_into() {
                Ok(record) => Ok(Record::Matrix(Box::new(Matrix::from_record(record)))),
                Err(_) => Err(wrong_length(bytes, &MATRIX)),
            },
            Some(&factors::KIND) => match bytes.try_into() {
                Ok(record) => Ok(Record::Result(Box::new(Factors::from_record(record)))),
                Err(_) => Err(wrong_length(bytes, &RESULT)),
            },
            Some(&REFUSAL_KIND) => match bytes {
                [_, number] => Ok(Record::Refusal(*number)),
                _ => Err(has_length(bytes, "a refusal", REFUSAL_BYTES)),
            },
            Some(kind) => Err(format!(
                "the kind byte is {kind:02X}; records begin with 01 (matrix), 02 (result) or \
                 03 (refusal): {}",
                refused_with(Refusal::WrongKind)
            )),
        }
    }

    /// The record's name in a sentence.
    pub fn name(&self) -> &'static str {
        match self {
            Record::Matrix(_) => "a matrix record",
            Record::Result(_) => "a result record",
            Record::Refusal(_) => "a refusal record",
        }
    }
}

/// What a file holds, as far as a record goes: one byte more than the longest shows that it is too
/// long.
pub fn read_bytes(file: &OsStr) -> Result<Vec<u8>, Failure> {
    files::read_up_to(file, factors::BYTES + 1)
}

fn wrong_length(bytes: &[u8], kind: &Kind) -> String {
    let why = refused_with(Refusal::WrongLength);
    format!("{}: {why}", has_length(bytes, kind.name, kind.bytes))
}

/// How many bytes a record of a kind has, and how many these are.
fn has_length(bytes: &[u8], kind: &str, expected: usize) -> String {
    let found = match bytes.len() {
        length if length > factors::BYTES => format!("more than {}", factors::BYTES),
        length => length.to_string(),
    };
    format!("{kind} record has {expected} bytes, this one {found}")
}

/// What is wrong with the first byte or the length of what should be a record of this kind, if anything
/// is.
pub fn wrong_frame(bytes: &[u8], wanted: &Kind) -> Option<String> {
    let Kind { name, byte, .. } = wanted;
    match bytes {
        [] => Some("empty".into()),
        [kind, ..] if kind != byte => Some(format!(
            "the kind byte is {kind:02X}, {name} record begins with {byte:02X}"
        )),
        _ if bytes.len() != wanted.bytes => Some(has_length(bytes, name, wanted.bytes)),
        _ => None,
    }
}

/// What it is that the engine refuses in a result record: its first byte, its length or a word of R.
pub fn refused_in_result(bytes: &[u8]) -> String {
    wrong_frame(bytes, &RESULT).unwrap_or_else(|| {
        let record = bytes.try_into().expect("nothing is wrong with its length");
        let factors = Factors::from_record(record);
        let broken = factors.rule_breaks().first();
        let place = broken.or_else(|| factors.zero_on_diagonal());
        factors.word_of_r(place.expect("nothing else is refused in such a record"))
    })
}
