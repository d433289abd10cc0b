//! Every kind of leading pair around the rule, at every turn of the schedule, with anything in the
//! other places.

use reference::area::{AREA_WORDS, COLUMNS};
use reference::clamps::Clamps;
use reference::job::Job;
use reference::random::Random;
use reference::replies::RunReply;
use reference::schedule::{self, Turn, TURNS};

use crate::common::words::arbitrary_area;
use crate::common::{Both, Case};
use crate::trace::{one_turn, Seen};

const MIN: i32 = i32::MIN;
const MAX: i32 = i32::MAX;

const WORDS: [i32; 11] = [MIN, MIN + 1, -12_345, -2, -1, 0, 1, 2, 12_345, MAX - 1, MAX];

/// What stands in the other places of an area.
#[derive(Debug, Clone, Copy)]
enum Others {
    Zeros,
    Arbitrary,
    /// Words that nearly any rotation takes out of the range.
    Ends,
}

impl Others {
    fn draw(self, random: &mut Random) -> [i32; AREA_WORDS] {
        match self {
            Others::Zeros => [0; AREA_WORDS],
            Others::Arbitrary => arbitrary_area(random),
            Others::Ends => std::array::from_fn(|_| random.choose(&[MIN, MAX])),
        }
    }
}

/// An area with this leading pair of a turn.
fn area_with(
    (upper, lower): (i32, i32),
    turn: Turn,
    others: Others,
    random: &mut Random,
) -> [i32; AREA_WORDS] {
    let mut words = others.draw(random);
    words[COLUMNS * turn.upper + turn.column] = upper;
    words[COLUMNS * turn.lower + turn.column] = lower;
    words
}

/// Makes each turn with each pair, handed any number of turns made before.
fn every_pair_at_every_turn(seed: u64, others: Others) -> Seen {
    let (mut seen, mut number) = (Seen::default(), 0);
    for (turn, rows) in (0..TURNS).zip(schedule::turns()) {
        for upper in WORDS {
            for lower in WORDS {
                let case = Case::of_words("leading pairs", seed, number);
                let mut random = case.random();
                let words = area_with((upper, lower), rows, others, &mut random);
                let mut both = Both::new(case);
                both.fill_area(&words);
                let made = random.below(turn as usize + 1) as u32;
                one_turn(&mut both, Job { turn, made }, &mut seen);
                number += 1;
            }
        }
    }
    seen.print(&format!("Leading pairs, {others:?} elsewhere"));
    // Of 121 pairs at each turn six are clear: those of 0 and five positive words with 0 below.
    assert_eq!(seen.skipped, 6 * u64::from(TURNS));
    assert_eq!(seen.made, 115 * u64::from(TURNS));
    seen
}

#[test]
fn leading_pairs_alone() {
    let seen = every_pair_at_every_turn(1001, Others::Zeros);
    assert_eq!(seen.clamps.q, 0);
}

#[test]
fn leading_pairs_with_arbitrary_words_elsewhere() {
    every_pair_at_every_turn(1002, Others::Arbitrary);
}

#[test]
fn leading_pairs_with_words_at_the_ends_elsewhere() {
    let seen = every_pair_at_every_turn(1003, Others::Ends);
    assert!(seen.clamps.r > 50_000 && seen.clamps.q > 50_000);
}

/// The same words three times: twice the pair is clear, and then its upper word is -1, where each
/// column but the leading one counts a clamp.
#[test]
fn words_that_a_turn_clamps_are_left_by_a_skipped_one() {
    for (turn, rows) in (0..TURNS).zip(schedule::turns()) {
        for upper in [0, 1, -1] {
            let case = Case::of_words("clamps of a clear pair", 1004, turn.into());
            let words = area_with((upper, 0), rows, Others::Ends, &mut case.random());
            let mut both = Both::new(case);
            both.fill_area(&words);
            let reply = both.run(Job { turn, made: turn }, 1);
            let clear = upper >= 0;
            let clamps = Clamps {
                r: 15 - rows.column as u32,
                q: 16,
            };
            let due = RunReply {
                number: 0,
                job: Job::new(turn + 1, turn + u32::from(!clear)),
                count: 1,
                clamps: if clear { Clamps::NONE } else { clamps },
            };
            both.require(reply == due, &format!("{reply:?}, due {due:?}"));
            let same = both.area().to_words() == words;
            both.require(same == clear, "the area changed, or did not");
        }
    }
}
