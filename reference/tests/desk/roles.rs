//! Every call by every role, and by numbers that are no role: 15 comes ahead of every other number.

use std::collections::BTreeSet;

use reference::area::AREA_WORDS;
use reference::desk::Desk;
use reference::job::Job;
use reference::random::Random;

use crate::common::desk::role::{all_roles, OPERATOR};
use crate::common::desk::{BothDesk, Call, Lent, Seen};
use crate::common::Case;
use crate::steps::{desk_of, desk_waiting, good_record};

/// The areas: of zeros, which a Fetch accepts, and with a word that it does not.
const ZEROS: usize = 0;
const UNDER: usize = 1;

/// A call that answers a number to the operator.
struct Asked {
    number: u8,
    desk: Desk,
    call: Call,
    lent: Lent,
}

/// The operator comes last, so that nobody else finds what it has changed.
pub fn roles() -> impl Iterator<Item = u32> {
    let others = all_roles().filter(|role| *role != OPERATOR);
    others.chain([OPERATOR])
}

fn asked(number: u8, desk: &Desk, call: Call, lent: Lent) -> Asked {
    let number = match call.sector() {
        Some(8..) => 12,
        _ => number,
    };
    Asked {
        number,
        desk: *desk,
        call,
        lent,
    }
}

/// Hand-ins that are loaded at once, that wait and that replace another, with a good record and with
/// every test failing.
fn hand_ins(sector: u32) -> Vec<Asked> {
    let good = good_record(&mut Random::new(1201));
    let mut unheard = good.clone();
    (0..8).for_each(|k| unheard[1 + 36 * k..][..2].copy_from_slice(&[0, 16]));
    let full = Lent::area(ZEROS);
    let short = Lent { words: 511, ..full };
    let [free, busy] = [(120, 7), (5, 5)].map(|(turn, made)| desk_of(Job { turn, made }, 9));
    let desks = [free, busy, desk_waiting(free), desk_waiting(busy)];
    let ways = [
        (0, good.clone(), full),
        (1, vec![], full),
        (1, [&[2], &good[1..]].concat(), full),
        (2, good[..256].to_vec(), full),
        (3, good, short),
        (4, unheard, full),
    ];
    let all = desks.iter().flat_map(|desk| {
        let hand_in = |(number, record, lent): &(u8, Vec<u8>, Lent)| {
            let record = record.clone();
            asked(*number, desk, Call::HandIn { sector, record }, *lent)
        };
        ways.iter().map(hand_in)
    });
    all.collect()
}

fn runs(sector: u32) -> Vec<Asked> {
    let ways = [
        (0, (5, 5), 9, 3, 512),
        (0, (5, 5), 0, 0, 512),
        (0, (120, 8), 0, 3, 512),
        (3, (5, 5), 9, 3, 511),
        (5, (5, 6), 9, 3, 512),
        (5, (121, 0), 9, 3, 512),
        (13, (5, 5), 0, 3, 512),
    ];
    let run = |(number, (turn, made), left, request, words)| {
        let lent = Lent {
            words,
            ..Lent::area(ZEROS)
        };
        let desk = desk_of(Job { turn, made }, left);
        asked(number, &desk, Call::Run { sector, request }, lent)
    };
    ways.map(run).into_iter().collect()
}

/// With a matrix that waits, and with none.
fn fetches(sector: u32) -> Vec<Asked> {
    let ways = [
        (0, (120, 8), ZEROS, 512, 2049),
        (3, (120, 8), ZEROS, 511, 2049),
        (5, (120, 121), ZEROS, 512, 2049),
        (6, (119, 8), ZEROS, 512, 2049),
        (7, (120, 8), ZEROS, 512, 2048),
        (8, (120, 8), UNDER, 512, 2049),
    ];
    let fetch = |(number, (turn, made), area, words, bytes)| {
        let lent = Lent { area, words, bytes };
        let desk = desk_of(Job { turn, made }, 9);
        [desk, desk_waiting(desk)].map(|desk| asked(number, &desk, Call::Fetch { sector }, lent))
    };
    ways.into_iter().flat_map(fetch).collect()
}

/// The calls that are for no sector, and the heard byte of each.
fn others(sector: u32) -> Vec<Asked> {
    let (desk, lent) = (desk_of(Job::new(5, 5), 3), Lent::area(ZEROS));
    let shares = |share| Call::SetShares { shares: [share; 8] };
    vec![
        asked(0, &desk, Call::Heard { sector }, lent),
        asked(0, &desk, Call::Begin, lent),
        asked(0, &desk, shares(15), lent),
        asked(14, &desk, shares(16), lent),
        asked(14, &desk, shares(8_192), lent),
    ]
}

fn fill(both: &mut BothDesk) {
    let mut under = [0; AREA_WORDS];
    under[15 * 32] = 1;
    both.fill_area(ZEROS, &[0; AREA_WORDS]);
    both.fill_area(UNDER, &under);
}

/// Each number that a call can give, and 0, as what 15 comes ahead of.
fn all_numbers() -> BTreeSet<(&'static str, u8)> {
    let calls: [(&str, &[u8]); 6] = [
        ("Hand in", &[0, 1, 2, 3, 4, 12]),
        ("Run", &[0, 3, 5, 12, 13]),
        ("Fetch", &[0, 3, 5, 6, 7, 8, 12]),
        ("Heard", &[0, 12]),
        ("Begin", &[0]),
        ("Set shares", &[0, 14]),
    ];
    let numbers = calls.into_iter();
    let numbers = numbers.flat_map(|(name, numbers)| numbers.iter().map(move |n| (name, *n)));
    numbers.collect()
}

/// Whatever the sector, and whatever else is wrong.
#[test]
fn fifteen_comes_ahead_of_every_other_number() {
    let (mut seen, mut ahead_of) = (Seen::default(), BTreeSet::new());
    for sector in (0..8).chain([8, 9, 255, 256, 257, 258, 263, 1 << 31, u32::MAX]) {
        let case = Case::of_words("every role", 1201, sector.into());
        let mut both = BothDesk::new(case, &mut seen);
        let all = [
            hand_ins(sector),
            runs(sector),
            fetches(sector),
            others(sector),
        ];
        for asked in all.iter().flatten() {
            fill(&mut both);
            for role in roles() {
                let reply = both.call_handed(role, &asked.desk, &asked.call, asked.lent);
                let allowed = asked.call.is_allowed_to(role);
                let due = if allowed { asked.number } else { 15 };
                both.require(reply.number == due, "another number");
                if !allowed {
                    ahead_of.insert((asked.call.name(), asked.number));
                }
            }
        }
    }
    seen.print("Every call by every role");
    assert_eq!(ahead_of, all_numbers(), "what 15 came ahead of");
}
