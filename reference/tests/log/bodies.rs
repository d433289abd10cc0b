//! Bodies, which are stored, kept and read whatever they are.

use reference::area::AREA_WORDS;
use reference::calls;
use reference::cases::Kind;
use reference::log::{Entry, EntryKind};
use reference::random::Random;
use reference::records::{write_matrix, RESULT_RECORD};

use crate::common::log::{BothLog, Call, Reply, Seen};
use crate::common::Case;
use crate::logs::{entry, Bodies, HEAD};
use crate::rules::{Others, Rule};

const TODAY: u32 = 20_000;

/// A body between two others: it is added, kept by a sweep that drops the one before it, and read.
fn keep(number: u64, kept: &Entry, seen: &mut Seen, others: &mut Others<3>) {
    let case = Case::of_words("bodies", 1561, number);
    let mut random = case.random();
    let [first, last] = [TODAY - 90, TODAY].map(|day| entry(EntryKind::Heard, day, &mut random));
    let mut log = BothLog::new(case, 2_100);
    let mut used = 0;
    for entry in [&first, kept, &last] {
        let made = seen.make(&mut log, Call::add(entry, used));
        others.look(&made);
        used += HEAD + entry.body.len();
        log.require(made.reply == Reply::used(used), "a body is not accepted");
    }
    let made = seen.make(&mut log, Call::Sweep { day: TODAY, used });
    log.require(made.reply == Reply::used(used - 6), "another sweep");
    let left = vec![kept.clone(), last];
    assert_eq!(seen.read_back(&mut log, used - 6), Some(left));
}

/// The result record of a worked matrix.
fn worked(random: &mut Random) -> Vec<u8> {
    let matrix = write_matrix(&random.choose(&Kind::ALL).matrix(random));
    let (mut area, mut record) = ([0; AREA_WORDS], [0; RESULT_RECORD]);
    calls::whole(&matrix, &mut area, &mut record);
    record.to_vec()
}

/// 2,049 bytes that are a log themselves, but for the last.
fn log_within(random: &mut Random) -> Vec<u8> {
    let mut body = Vec::new();
    while body.len() < RESULT_RECORD {
        body.extend(entry(EntryKind::Refusal, TODAY - 400, random).bytes());
    }
    body.truncate(RESULT_RECORD);
    body
}

#[test]
fn any_bytes_are_a_body() {
    let (mut seen, mut others) = (Seen::default(), Others::of(Rule::OF_BODIES));
    let mut random = Random::new(1561);
    let mut number = 0;
    let mut make = |kind, body: Vec<u8>| {
        let day = TODAY;
        let entry = Entry { kind, day, body };
        keep(number, &entry, &mut seen, &mut others);
        number += 1;
    };
    for byte in 0..=255 {
        make(EntryKind::Refusal, vec![byte]);
        make(EntryKind::Heard, vec![byte]);
        make(EntryKind::Result, vec![byte; RESULT_RECORD]);
        let mut other = worked(&mut random);
        make(EntryKind::Result, other.clone());
        other[0] = byte;
        make(EntryKind::Result, other);
        let bodies = random.choose(&Bodies::ALL);
        make(EntryKind::Result, bodies.draw(RESULT_RECORD, &mut random));
        make(EntryKind::Result, log_within(&mut random));
    }
    seen.print(&format!("{number} bodies"));
    others.print_and_require_all_rules("bodies");
    seen.assert_numbers(&[]);
}
