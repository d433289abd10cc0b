//! The calls of the log by the host crate's safe types.

use hubqr::{Journal, Refusal};
use reference::log::{EntryReply, LogReply};

use super::{Call, Made, Reply};

/// Whether the same call on the same bytes answers and leaves the same by the host crate.
pub fn is_same(made: &Made) -> bool {
    let mut buffer = made.before.clone();
    let reply = match made.call {
        Call::Add {
            kind,
            day,
            ref body,
            used,
        } => change(&mut buffer, used, |log| log.add_bytes(kind, day, body)),
        Call::Sweep { day, used } => change(&mut buffer, used, |log| {
            log.sweep(day);
            Ok(())
        }),
        Call::Next { at, used } => match buffer.get(..used) {
            Some(bytes) => read(at, bytes),
            None => made.reply,
        },
    };
    reply == made.reply && buffer == made.after
}

/// Opens a log and changes it. A refusal answers no used count.
fn change(
    buffer: &mut [u8],
    used: usize,
    call: impl FnOnce(&mut Journal) -> Result<(), Refusal>,
) -> Reply {
    let changed = Journal::open(buffer, used).and_then(|mut log| {
        call(&mut log)?;
        Ok(log.used())
    });
    changed.map_or_else(refused, Reply::used)
}

fn refused(refusal: Refusal) -> Reply {
    let (number, used) = (refusal.number(), 0);
    Reply::Log(LogReply { number, used })
}

/// Reads an entry of used bytes, which are all that the host crate is handed.
fn read(at: usize, used: &[u8]) -> Reply {
    let nothing = EntryReply::default();
    Reply::Entry(match hubqr::Entry::read(at, used) {
        Err(refusal) => EntryReply {
            number: refusal.number(),
            ..nothing
        },
        Ok(None) => EntryReply {
            next: used.len(),
            ..nothing
        },
        Ok(Some(entry)) => EntryReply {
            number: 0,
            kind: entry.body.kind(),
            day: entry.day,
            body: at + entry.length() - entry.body.bytes().len(),
            body_len: entry.body.bytes().len(),
            next: at + entry.length(),
        },
    })
}
