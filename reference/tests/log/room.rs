//! Buffers in which an entry just fits, or just does not.

use reference::log::{Entry, EntryKind};
use reference::random::Random;

use crate::common::log::{BothLog, Call, Reply, Seen};
use crate::common::Case;
use crate::logs::{bytes, entries, entry, HEAD};
use crate::rules::{Others, Rule};

use EntryKind::{Heard, Refusal, Result};

/// What stands in the log before.
const BEFORE: [&[EntryKind]; 6] = [
    &[],
    &[Heard],
    &[Refusal, Heard, Heard],
    &[Result],
    &[Heard, Result, Refusal],
    &[Result, Refusal, Result, Result],
];

/// One entry added to a log in buffers of every length from the used count on.
fn add_to_every_length(
    before: &[Entry],
    entry: &Entry,
    seed: u64,
    seen: &mut Seen,
    others: &mut Others<{ Rule::OF_ROOM.len() }>,
) {
    let log = bytes(before);
    let (used, needed) = (log.len(), HEAD + entry.body.len());
    let case = Case::of_words("room", seed, used as u64);
    let mut both = BothLog::new(case, used + needed + 12);
    for room in 0..=needed + 12 {
        both.lend(used + room);
        both.fill(&log);
        let made = seen.make(&mut both, Call::add(entry, used));
        if room < needed {
            assert_eq!(made.reply.number(), 17, "{}", made.call);
        } else {
            assert_eq!(made.reply, Reply::used(used + needed), "{}", made.call);
        }
        others.look(&made);
    }
}

#[test]
fn an_entry_that_fits_exactly_is_accepted() {
    let (mut seen, mut others) = (Seen::default(), Others::of(Rule::OF_ROOM));
    let mut random = Random::new(1511);
    for kinds in BEFORE {
        for kind in EntryKind::ALL {
            let before = entries(kinds, 300, &mut random);
            let entry = entry(kind, 301, &mut random);
            add_to_every_length(&before, &entry, 1511, &mut seen, &mut others);
        }
    }
    seen.print("Buffers of every length around an entry");
    others.print_and_require_all_rules("room");
    seen.assert_numbers(&[17]);
    assert_eq!(seen.added, 6 * 3 * 13);
}

/// Entries are added until none of any kind fits, and what is left is less than the shortest.
#[test]
fn a_buffer_is_used_up() {
    let mut seen = Seen::default();
    for number in 0..400 {
        let case = Case::of_words("used up", 1512, number);
        let mut random = case.random();
        let bytes = random.below(if number % 4 == 0 { 9_000 } else { 130 });
        let mut log = BothLog::new(case, bytes);
        let (mut used, mut added) = (0, Vec::new());
        while bytes - used >= 6 {
            let kind = random.choose(&EntryKind::ALL);
            let entry = entry(kind, random.word() as u32, &mut random);
            let made = seen.make(&mut log, Call::add(&entry, used));
            let end = used + HEAD + entry.body.len();
            let due = if end <= bytes { 0 } else { 17 };
            assert_eq!(made.reply.number(), due, "case {number}, {}", made.call);
            if due == 0 {
                used = end;
                added.push(entry);
            }
            if bytes > 1_000 && random.one_in(40) {
                break;
            }
        }
        assert_eq!(seen.read_back(&mut log, used), Some(added));
    }
    seen.print("Buffers that are used up");
    seen.assert_numbers(&[17]);
}
