//! `record log`: the entries of a log, one a line.
use std::ffi::OsStr;
use std::fmt::Display;

use hubqr::{Body, Entry, Refusal, AREA_WORDS};
use hubqr::{
    LOG_HEARD, LOG_HEARD_BYTES, LOG_REFUSAL, LOG_REFUSAL_BYTES, LOG_RESULT, LOG_RESULT_BYTES,
};

use crate::date::date;
use crate::failure::Failure;
use crate::records::refused_in_result;
use crate::refusal::refused_with;
use crate::show::antennas;
use crate::{files, Report};

/// Far more than a hub keeps, and no more than can be listed at once.
const MOST: usize = 16 << 20;

pub fn log(file: &OsStr) -> Result<Report, Failure> {
    let bytes = files::read_up_to(file, MOST + 1)?;
    if bytes.len() > MOST {
        return Err(files::named(
            file,
            "longer than 16 MiB, too long to be listed",
        ));
    }
    let mut text = line("place", "day", "swept from", "entry");
    let (mut at, mut entries) = (0, 0);
    let refused = loop {
        match Entry::read(at, &bytes) {
            Ok(Some(entry)) => {
                text += &entry_line(at, &entry);
                at += entry.length();
                entries += 1;
            }
            Ok(None) => break None,
            Err(refusal) => break Some(refusal),
        }
    };
    text += &count_line(entries, at, bytes.len());
    let mut report = Report::text(text, refused.is_none());
    report.remark = refused.map(|refusal| {
        let (what, why) = (no_entry(&bytes[at..]), refused_with(refusal));
        format!(
            "{}: no entry at place {at}: {what}: {why}",
            files::shown(file)
        )
    });
    Ok(report)
}

fn line(place: impl Display, day: &str, swept_from: &str, entry: &str) -> String {
    format!("{place:>8}  {day:<10}  {swept_from:<10}  {entry}\n")
}

fn entry_line(place: usize, entry: &Entry) -> String {
    let swept_from = match u32::try_from(entry.swept_from()) {
        Ok(day) => date(day.into()),
        Err(_) => "never".into(),
    };
    line(
        place,
        &date(entry.day.into()),
        &swept_from,
        &held(entry.body),
    )
}

/// What an entry holds, in words.
fn held(body: Body) -> String {
    match body {
        Body::Heard(heard) => antennas(heard),
        Body::Refusal(number) => match Refusal::try_from(number) {
            Ok(refusal) => format!("refusal {number}: {refusal}"),
            Err(unknown) => format!("refusal {number}: {unknown}"),
        },
        Body::Result(record) => match hubqr::read(record, &mut [0; AREA_WORDS]) {
            Ok(_) => "result, which the engine reads".into(),
            Err(refusal) => {
                let (what, why) = (refused_in_result(record), refused_with(refusal));
                format!("result: {what}: {why}")
            }
        },
    }
}

/// How many entries there are and how many bytes they take, which are all unless the file is no log.
fn count_line(entries: usize, bytes: usize, all: usize) -> String {
    let entries = match entries {
        1 => "1 entry".into(),
        _ => format!("{entries} entries"),
    };
    let bytes = match bytes {
        _ if bytes == all => bytes.to_string(),
        _ => format!("{bytes} of {all}"),
    };
    format!("{entries}, {bytes} bytes\n")
}

/// Why no entry stands at the beginning of these bytes, of which there is at least one.
fn no_entry(bytes: &[u8]) -> String {
    let (kind, left) = (bytes[0], bytes.len());
    let whole = match kind.into() {
        LOG_RESULT => LOG_RESULT_BYTES,
        LOG_REFUSAL => LOG_REFUSAL_BYTES,
        LOG_HEARD => LOG_HEARD_BYTES,
        _ => {
            return format!(
                "the kind byte is {kind:02X}; entries begin with 05 (result), 06 (refusal) or \
                 07 (heard byte)"
            )
        }
    };
    format!("an entry of kind {kind:02X} has {whole} bytes, this one {left}")
}
