//! Every refusal number with every set of failing tests, so that the order of the tests decides.

use std::collections::BTreeSet;

use crate::common::log::{BothLog, Call, Seen};
use crate::common::Case;
use crate::logs::HEAD;
use crate::rules::{Others, Rule};

/// What stands at the start of the buffer: a heard byte, a refusal, and no entry behind them.
const LOG: [u8; 12] = [7, 0, 0, 78, 32, 5, 6, 0, 0, 78, 33, 6];

/// Numbers for a kind: those that there are, first, and others.
const KINDS: [u32; 9] = [5, 6, 7, 0, 2, 4, 8, 256 + 5, u32::MAX];
const LENGTHS: [usize; 6] = [1, 2_049, 0, 2, 2_048, 2_050];

/// Used counts that end on an entry, and such that do not.
const WHOLE: [usize; 3] = [0, 6, 12];
const BROKEN: [usize; 8] = [1, 4, 5, 7, 11, 13, 17, 18];

/// Room that no entry fits, and room that any entry fits, even one of a longer body than there is.
const NO_ROOM: [usize; 2] = [0, 4];
const ROOM: usize = 2_100;

/// The numbers in the order of their tests.
const ORDER: [u8; 4] = [16, 1, 2, 17];

/// A used count and a buffer, and whether tests 16 and 17 fail.
#[derive(Debug, Clone, Copy)]
struct Lent {
    used: usize,
    bytes: usize,
    fails: [bool; 2],
}

/// Every way to lend a buffer to an entry. Where its length is right it just fits, or just does not.
fn ways(entry: usize, is_length: bool) -> Vec<Lent> {
    let mut ways = Vec::new();
    let whole = WHOLE.map(|used| (used, false));
    let broken = BROKEN.map(|used| (used, true));
    for (used, broken) in whole.into_iter().chain(broken) {
        let mut lend = |room, short| {
            let (bytes, fails) = (used + room, [broken, short]);
            ways.push(Lent { used, bytes, fails });
        };
        NO_ROOM.into_iter().for_each(|room| lend(room, true));
        lend(ROOM, false);
        if is_length {
            lend(entry - 1, true);
            lend(entry, false);
        }
    }
    for bytes in [0, 11, 12, 13, ROOM] {
        for used in [bytes + 1, bytes + 6, (1 << 32) + 6, usize::MAX] {
            let fails = [true, true];
            ways.push(Lent { used, bytes, fails });
        }
    }
    ways
}

/// The buffer: the log, and zeros, which are no kind.
fn lend(case: Case, bytes: usize) -> BothLog {
    let mut buffer = LOG.to_vec();
    buffer.resize(bytes, 0);
    BothLog::holding(case, &buffer, bytes)
}

#[test]
fn a_refusal_answers_the_first_test_that_fails() {
    let (mut seen, mut others) = (Seen::default(), Others::of(Rule::orders()));
    let (mut sets, mut number) = (BTreeSet::new(), 0);
    for kind in KINDS {
        for length in LENGTHS {
            let is_kind = (5..=7).contains(&kind);
            let is_length = match kind {
                5 => length == 2_049,
                6 | 7 => length == 1,
                _ => [1, 2_049].contains(&length),
            };
            for Lent { used, bytes, fails } in ways(HEAD + length, is_length) {
                let mut log = lend(Case::of_words("sets of tests", 1571, number), bytes);
                let (day, body) = (number as u32, vec![0xA5; length]);
                let call = Call::Add {
                    kind,
                    day,
                    body,
                    used,
                };
                let made = seen.make(&mut log, call);
                let fails = [fails[0], !is_kind, !is_length, fails[1]];
                let failing = fails.into_iter().zip(ORDER).find(|(fails, _)| *fails);
                let due = failing.map_or(0, |(_, number)| number);
                log.require(
                    made.reply.number() == due,
                    format_args!("{due}: {}", made.call),
                );
                others.look(&made);
                sets.insert(fails);
                number += 1;
            }
        }
    }
    seen.print(&format!("{} sets of failing tests", sets.len()));
    others.print_and_require_all_rules("sets of tests");
    seen.assert_numbers(&[1, 2, 16, 17]);
    assert_eq!(sets.len(), 16, "not every set of tests failed");
}

/// 16 is the only number of sweeping and of reading, whatever room there is and whatever day it is. What
/// is read at the start is the first entry alone.
#[test]
fn sweeping_and_reading_have_one_number() {
    let mut seen = Seen::default();
    for (number, lent) in ways(6, true).into_iter().enumerate() {
        let Lent { used, bytes, fails } = lent;
        let first_fails = used > bytes || (1..6).contains(&used);
        let days = [0, 20_000, 20_031, 20_090, u32::MAX];
        let sweeps = days.map(|day| (Call::Sweep { day, used }, fails[0]));
        let reading = (Call::Next { at: 0, used }, first_fails);
        for (call, fails) in sweeps.into_iter().chain([reading]) {
            let mut log = lend(Case::of_words("one number", 1572, number as u64), bytes);
            let made = seen.make(&mut log, call);
            let due = if fails { 16 } else { 0 };
            log.require(made.reply.number() == due, &made.call);
        }
    }
    seen.print("Sweeping and reading whole and broken logs");
    seen.assert_numbers(&[16]);
}
