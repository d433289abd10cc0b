//! Logs with damaged bytes, and used counts that are not theirs.

use reference::log::{Entry, EntryKind};
use reference::random::Random;

use crate::common::log::{BothLog, Call, Seen};
use crate::common::Case;
use crate::logs::{bytes, ends, entry};
use crate::rules::{Others, Rule};

const LOGS: u64 = 8_000;

/// Short entries, and in one of four logs results.
fn any_entry(number: u64, random: &mut Random) -> Entry {
    let kinds = match number % 4 {
        0 => &EntryKind::ALL[..],
        _ => &[EntryKind::Refusal, EntryKind::Heard],
    };
    let (kind, day) = (random.choose(kinds), random.word() as u32);
    entry(kind, day, random)
}

/// A log, what stands behind it, and a used count. Some kind bytes, or bytes near them, are others.
fn damaged(number: u64, random: &mut Random) -> (Vec<u8>, usize) {
    let entries = (0..number % 6).map(|_| any_entry(number, random));
    let entries: Vec<Entry> = entries.collect();
    let (mut bytes, ends) = (bytes(&entries), ends(&entries));
    let behind = random.below(15);
    bytes.resize_with(bytes.len() + behind, || random.byte());
    for _ in 0..random.choose(&[0, 0, 1, 1, 2, 5]) {
        let place = random.choose(&ends) + random.choose(&[0, 0, 0, 1, 4, 5]);
        let any = random.byte();
        let byte = random.choose(&[5, 6, 7, 0, 4, 8, any]);
        bytes.iter_mut().skip(place).take(1).for_each(|b| *b = byte);
    }
    let end = random.choose(&ends);
    let used = match random.below(20) {
        0 => (1 << 32) + end,
        1..=5 => random.below(bytes.len() + 8),
        _ => end,
    };
    (bytes, used)
}

/// Reading from 0 on meets 16 exactly if adding and sweeping answer it, whatever bytes there are.
#[test]
fn the_three_calls_agree_on_what_a_whole_run_is() {
    let (mut seen, mut others) = (Seen::default(), Others::of(Rule::OF_RUNS));
    let mut whole = 0;
    for number in 0..LOGS {
        let case = Case::of_words("damaged", 1595, number);
        let mut random = case.random();
        let (bytes, used) = damaged(number, &mut random);
        let added = any_entry(number, &mut random);
        let day = random.word() as u32;
        let mut log = BothLog::new(case, bytes.len());
        let [adding, sweeping] = [Call::add(&added, used), Call::Sweep { day, used }].map(|call| {
            log.fill(&bytes);
            let made = seen.make(&mut log, call);
            others.look(&made);
            made.reply.number() == 16
        });
        log.fill(&bytes);
        let reading = seen.read_back(&mut log, used).is_none();
        log.require(
            [adding, reading] == [sweeping; 2],
            format_args!("16 of {used} used: {adding}, {sweeping}, {reading}"),
        );
        whole += u64::from(!reading);
    }
    seen.print(&format!(
        "{LOGS} damaged logs, {whole} of which are whole runs"
    ));
    others.print_and_require_all_rules("damaged");
    seen.assert_numbers(&[16, 17]);
    assert!((1_000..7_000).contains(&whole), "{whole} whole runs");
}
