//! What an entry is handed as: numbers for kinds, bodies of every length, and days.

use reference::log::EntryKind;
use reference::random::Random;

use crate::common::log::{BothLog, Call, Reply, Seen};
use crate::common::Case;
use crate::logs::{entry, HEAD};
use crate::rules::{Others, Rule};

const LONGEST: usize = 2_100;
const LENGTHS: [usize; 6] = [0, 1, 2, 2_048, 2_049, 2_050];

/// The number for a kind and a body, where the entry fits.
fn due(kind: u32, bytes: usize) -> u8 {
    match (kind, bytes) {
        (5, 2_049) | (6 | 7, 1) => 0,
        (5..=7, _) => 2,
        _ => 1,
    }
}

/// All small numbers, and those around 5 to 7 with another bit set besides.
fn numbers() -> impl Iterator<Item = u32> {
    let high = (8..32).flat_map(|bit| (3..=9).map(move |low| (1 << bit) + low));
    let last = (0..=9).map(|below| u32::MAX - below);
    (0..=300).chain(high).chain(last)
}

#[test]
fn three_numbers_are_kinds() {
    let (mut seen, mut others) = (Seen::default(), Others::of(Rule::OF_KINDS));
    let mut random = Random::new(1501);
    let mut kinds = 0;
    for kind in numbers() {
        for (k, bytes) in LENGTHS.into_iter().enumerate() {
            let case = Case::of_words("kinds", 1501, 6 * u64::from(kind) + k as u64);
            let mut log = BothLog::new(case, LONGEST);
            let body = (0..bytes).map(|_| random.byte()).collect();
            let (day, used) = (20_000, 0);
            let call = Call::Add {
                kind,
                day,
                body,
                used,
            };
            let made = seen.make(&mut log, call);
            assert_eq!(made.reply.number(), due(kind, bytes), "{}", made.call);
            others.look(&made);
        }
        kinds += 1;
    }
    seen.print(&format!("{kinds} numbers for a kind"));
    others.print_and_require_all_rules("kinds");
    seen.assert_numbers(&[1, 2]);
    assert_eq!(seen.added, 3);
}

#[test]
fn each_kind_has_bodies_of_one_length() {
    let mut seen = Seen::default();
    let mut random = Random::new(1502);
    for kind in EntryKind::ALL {
        let number = u32::from(kind.number());
        for bytes in 0..=LONGEST {
            let case = Case::of_words("lengths", 1502, bytes as u64);
            let mut log = BothLog::new(case, HEAD + LONGEST);
            let body = (0..bytes).map(|_| random.byte()).collect();
            let call = Call::Add {
                kind: number,
                day: bytes as u32,
                body,
                used: 0,
            };
            let made = seen.make(&mut log, call);
            assert_eq!(made.reply.number(), due(number, bytes), "{}", made.call);
        }
    }
    seen.print("Bodies of every length");
    seen.assert_numbers(&[2]);
    assert_eq!(seen.added, 3);
}

/// A day of one byte alone at each of its four places, and days that have the same bytes in any order.
#[test]
fn a_day_stands_high_byte_first() {
    let mut seen = Seen::default();
    let mut random = Random::new(1503);
    let single = (0..4).flat_map(|place| (0..=255).map(move |byte: u32| byte << (8 * place)));
    let any: Vec<u32> = (0..1_000).map(|_| random.word() as u32).collect();
    for (number, day) in single.chain(any).enumerate() {
        let kind = random.choose(&EntryKind::ALL);
        let entry = entry(kind, day, &mut random);
        let case = Case::of_words("days stored", 1503, number as u64);
        let mut log = BothLog::new(case, 2_060);
        let made = seen.make(&mut log, Call::add(&entry, 0));
        let end = HEAD + entry.body.len();
        assert_eq!(made.reply, Reply::used(end), "{}", made.call);
        let [a, b, c, d] = [1, 2, 3, 4].map(|place| u32::from(made.after[place]));
        assert_eq!(((a * 256 + b) * 256 + c) * 256 + d, day, "{}", made.call);
        assert_eq!(seen.read_back(&mut log, end), Some(vec![entry]));
    }
    seen.print("Days of every byte");
    seen.assert_numbers(&[]);
}
