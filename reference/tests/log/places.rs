//! Reading at every place: where entries stand, within them, at the end and beyond.

use reference::log::{Entry, EntryKind, EntryReply};

use crate::common::log::{BothLog, Call, Reply, Seen};
use crate::common::Case;
use crate::logs::{bytes, ends, Bodies, HEAD};
use crate::rules::{Others, Rule};

use EntryKind::{Heard, Refusal, Result};

type OtherReading = Others<{ Rule::OF_READING.len() }>;

/// Bytes behind a log.
const TAIL: usize = 25;

const BEYOND: [usize; 6] = [
    1 << 16,
    1 << 32,
    (1 << 32) + 6,
    1 << 63,
    usize::MAX - 5,
    usize::MAX,
];

/// Entries whose days and bodies are drawn in one way.
fn draw(case: &Case, kinds: &[EntryKind], bodies: Bodies) -> Vec<Entry> {
    let mut random = case.random();
    let entry = |kind: &EntryKind| Entry {
        kind: *kind,
        day: bodies.draw(4, &mut random).iter().fold(0, shift_in),
        body: bodies.draw(kind.body_bytes(), &mut random),
    };
    kinds.iter().map(entry).collect()
}

fn shift_in(day: u32, byte: &u8) -> u32 {
    day << 8 | u32::from(*byte)
}

/// What is due at a place: the entry of the log that stands there, its end, or 16. Within an entry, and
/// behind the log, nothing is known of what bytes look like.
fn due(entries: &[Entry], lent: usize, at: usize, used: usize) -> Option<EntryReply> {
    let nothing = EntryReply::default();
    let refused = EntryReply {
        number: 16,
        ..nothing
    };
    if used > lent || at > used {
        return Some(refused);
    }
    if at == used {
        let next = used;
        return Some(EntryReply { next, ..nothing });
    }
    let mut placed = ends(entries).into_iter().zip(entries);
    let (_, entry) = placed.find(|(start, _)| *start == at)?;
    let (body, body_len) = (at + HEAD, entry.body.len());
    let read = EntryReply {
        number: 0,
        kind: entry.kind.number().into(),
        day: entry.day,
        body,
        body_len,
        next: body + body_len,
    };
    Some(if read.next <= used { read } else { refused })
}

/// Reads at a place what is due there.
fn read(
    log: &mut BothLog,
    entries: &[Entry],
    (at, used): (usize, usize),
    seen: &mut Seen,
    others: &mut OtherReading,
) {
    let made = seen.make(log, Call::Next { at, used });
    others.look(&made);
    let due = due(entries, made.before.len(), at, used);
    log.require(
        due.is_none_or(|due| made.reply == Reply::Entry(due)),
        format_args!("{due:?} is due: {:?} to {}", made.reply, made.call),
    );
}

/// Every place with every used count, in and around logs of short entries.
#[test]
fn every_place_with_every_used_count() {
    let (mut seen, mut others) = (Seen::default(), Others::of(Rule::OF_READING));
    let logs: [&[EntryKind]; 4] = [
        &[],
        &[Heard],
        &[Heard, Refusal, Heard],
        &[Refusal, Refusal, Heard, Refusal, Heard],
    ];
    for (number, kinds) in logs.into_iter().enumerate() {
        let case = Case::of_words("places", 1541, number as u64);
        let entries = draw(&case, kinds, Bodies::Kinds);
        let bytes = bytes(&entries);
        let lent = bytes.len() + TAIL;
        let mut log = BothLog::holding(case, &bytes, lent);
        for used in (0..=lent + 4).chain(BEYOND) {
            for at in (0..=lent + 8).chain(BEYOND) {
                read(&mut log, &entries, (at, used), &mut seen, &mut others);
            }
        }
    }
    seen.print("Reading at every place with every used count");
    others.print_and_require_all_rules("places");
    seen.assert_numbers(&[16]);
}

/// Every place of logs with results, whose bodies may look like entries. The used counts are those that
/// end on an entry and those around them.
#[test]
fn places_within_results() {
    let (mut seen, mut others) = (Seen::default(), Others::of(Rule::OF_READING));
    let logs: [&[EntryKind]; 2] = [&[Result], &[Heard, Result, Refusal]];
    let mut number = 0;
    for kinds in logs {
        for bodies in Bodies::ALL {
            let case = Case::of_words("places within", 1542, number);
            let entries = draw(&case, kinds, bodies);
            let bytes = bytes(&entries);
            let lent = bytes.len() + TAIL;
            let mut log = BothLog::holding(case, &bytes, lent);
            let counts = ends(&entries).into_iter();
            let counts = counts.flat_map(|end| [end.saturating_sub(1), end, end + 1]);
            for used in counts.chain([lent, lent + 1, (1 << 32) + lent, usize::MAX]) {
                for at in (0..=lent + 2).chain(BEYOND) {
                    read(&mut log, &entries, (at, used), &mut seen, &mut others);
                }
            }
            number += 1;
        }
    }
    seen.print("Reading at every place of logs with results");
    others.print_and_require_all_rules("places within");
    seen.assert_numbers(&[16]);
}
