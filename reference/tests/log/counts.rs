//! Used counts of every value: on the end of an entry, within one, in what stands behind the log, and
//! beyond the buffer.

use reference::log::{Entry, EntryKind};
use reference::random::Random;

use crate::common::log::{BothLog, Call, Seen};
use crate::common::Case;
use crate::logs::{bytes, ends, entry};
use crate::rules::{Others, Rule};

use EntryKind::{Heard, Refusal, Result};

type OtherRuns = Others<{ Rule::OF_RUNS.len() }>;

/// The kinds of entries in the logs.
const LOGS: [&[EntryKind]; 8] = [
    &[],
    &[Heard],
    &[Refusal, Heard],
    &[Heard, Heard, Refusal, Heard, Refusal],
    &[Result],
    &[Refusal, Result, Heard],
    &[Result, Result],
    &[Heard, Result, Refusal, Refusal, Result, Heard],
];

/// Bytes that stand behind a log, all of them the same: no kind; a kind whose entry does not fit; one
/// of which three entries fill the buffer; and no kind, but for its low bits.
const TAIL: usize = 18;
const TAILS: [u8; 4] = [0, 5, 7, 15];

/// Used counts beyond every buffer. The low bits of some are those of a count that ends on an entry.
const BEYOND: [usize; 12] = [
    1 << 16,
    (1 << 16) + 6,
    1 << 31,
    1 << 32,
    (1 << 32) + 6,
    (1 << 32) + 12,
    (1 << 63) - 1,
    1 << 63,
    (1 << 63) + 6,
    usize::MAX - 5,
    usize::MAX - 1,
    usize::MAX,
];

/// Entries of any days.
fn draw(kinds: &[EntryKind], random: &mut Random) -> Vec<Entry> {
    let kinds = kinds.iter();
    kinds
        .map(|kind| entry(*kind, random.word() as u32, random))
        .collect()
}

/// All calls with a used count, each on the same bytes, which are refused with 16 exactly if it is not
/// to be accepted.
fn make_all(
    log: &mut BothLog,
    bytes: &[u8],
    used: usize,
    accepted: bool,
    seen: &mut Seen,
    others: &mut OtherRuns,
) {
    let heard = Entry {
        kind: Heard,
        day: 77,
        body: vec![0x5A],
    };
    let days = [0, 1 << 31, u32::MAX];
    let sweeps = days.map(|day| Call::Sweep { day, used });
    for call in sweeps.into_iter().chain([Call::add(&heard, used)]) {
        log.fill(bytes);
        let made = seen.make(log, call);
        let refused = made.reply.number() == 16;
        log.require(refused != accepted, format_args!("16 to {}", made.call));
        others.look(&made);
    }
    log.fill(bytes);
    let read = seen.read_back(log, used);
    log.require(read.is_some() == accepted, "reading meets 16 elsewhere");
}

#[test]
fn used_counts_end_on_an_entry() {
    let (mut seen, mut others) = (Seen::default(), Others::of(Rule::OF_RUNS));
    let (mut number, mut accepted) = (0, 0);
    for kinds in LOGS {
        for tail in TAILS {
            let case = Case::of_words("used counts", 1531, number);
            let entries = draw(kinds, &mut case.random());
            let mut ends = ends(&entries);
            let mut bytes = bytes(&entries);
            if tail == 7 {
                ends.extend([6, 12, 18].map(|more| bytes.len() + more));
            }
            bytes.resize(bytes.len() + TAIL, tail);
            let mut log = BothLog::new(case, bytes.len());
            for used in (0..bytes.len() + 30).chain(BEYOND) {
                let due = ends.contains(&used);
                make_all(&mut log, &bytes, used, due, &mut seen, &mut others);
                accepted += u64::from(due);
            }
            number += 1;
        }
    }
    seen.print(&format!("Used counts of every value in {number} logs"));
    println!("{accepted} counts end on an entry");
    others.print_and_require_all_rules("used counts");
    seen.assert_numbers(&[16, 17]);
}

/// A buffer that is no longer than its log, so that the next count is beyond it.
#[test]
fn a_log_may_fill_its_buffer() {
    let (mut seen, mut others) = (Seen::default(), Others::of(Rule::OF_FULL));
    for (number, kinds) in LOGS.into_iter().enumerate() {
        let case = Case::of_words("full", 1532, number as u64);
        let entries = draw(kinds, &mut case.random());
        let bytes = bytes(&entries);
        let mut log = BothLog::holding(case, &bytes, bytes.len());
        for (used, due) in [(bytes.len(), 0), (bytes.len() + 1, 16)] {
            let made = seen.make(&mut log, Call::Sweep { day: 0, used });
            assert_eq!(made.reply.number(), due, "{}", made.call);
            others.look(&made);
        }
        let read = seen.read_back(&mut log, bytes.len());
        assert_eq!(read, Some(entries));
    }
    seen.print("Logs that fill their buffers");
    others.print_and_require_all_rules("full");
}

/// Sweeps a log in which a byte stands for the kind of an entry. Refusals and heard bytes are as long as
/// each other, so that the one may stand for the other.
fn replace_kind(kind: EntryKind, start: usize, byte: u8, bytes: &[u8], seen: &mut Seen) {
    let mut other = bytes.to_vec();
    other[start] = byte;
    let case = Case::of_words("kind bytes", 1533, byte.into());
    let mut log = BothLog::holding(case, &other, other.len() + 3);
    let [before, all] = [start, other.len()].map(|used| {
        let made = seen.make(&mut log, Call::Sweep { day: 0, used });
        made.reply.number()
    });
    let read = seen.read_back(&mut log, other.len());
    log.require(before == 0, "what stands before it is a whole run");
    log.require(read.is_some() == (all == 0), "reading meets 16 elsewhere");
    match (kind, byte) {
        (Result, 5) | (Refusal | Heard, 6 | 7) => log.require(all == 0, "a kind of this length"),
        (_, 5..=7) => {}
        _ => log.require(all == 16, "no kind"),
    }
}

#[test]
fn every_byte_for_a_kind_in_a_log() {
    let mut seen = Seen::default();
    let kinds = [Heard, Result, Refusal, Heard];
    let entries = draw(&kinds, &mut Random::new(1533));
    let (bytes, starts) = (bytes(&entries), ends(&entries));
    for (kind, start) in kinds.into_iter().zip(starts) {
        for byte in 0..=255 {
            replace_kind(kind, start, byte, &bytes, &mut seen);
        }
    }
    seen.print("Every byte for a kind in a log");
    seen.assert_numbers(&[16]);
}
