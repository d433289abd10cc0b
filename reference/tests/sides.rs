//! Clamps by side: a word of columns 0 to 15 counts in R, one of columns 16 to 31 in Q. Areas that
//! no Load filled, with large words on one side, on both, or in one column alone.

mod common;

use std::ops::Range;

use common::words::arbitrary_area;
use common::{Both, Case};
use reference::area::{AREA_WORDS, COLUMNS};
use reference::clamps::Clamps;
use reference::job::Job;
use reference::random::Random;
use reference::schedule::{self, TURNS};

const AREAS: u64 = 1500;
const TURNS_PER_AREA: u32 = 4;

/// At least so many turns of the kind that a test is about.
const ENOUGH: u32 = 2000;

const LEFT: Range<usize> = 0..16;
const RIGHT: Range<usize> = 16..32;
const ALL: Range<usize> = 0..32;

/// Makes all words small but those of the large columns: at most 2^28. A column of sixteen such
/// words is at most 2^30 long and keeps its length but for rounding, so that none is ever clamped.
fn shrink(words: &mut [i32; AREA_WORDS], large: &Range<usize>, random: &mut Random) {
    for (place, word) in words.iter_mut().enumerate() {
        if !large.contains(&(place % COLUMNS)) {
            *word = random.word() >> 3;
        }
    }
}

/// Arbitrary words in the large columns, small ones in the others.
fn arbitrary(large: &Range<usize>, random: &mut Random) -> [i32; AREA_WORDS] {
    let mut words = arbitrary_area(random);
    shrink(&mut words, large, random);
    words
}

/// Words at the ends of the 32-bit range in the large columns, small ones in the others.
fn at_the_ends(large: &Range<usize>, random: &mut Random) -> [i32; AREA_WORDS] {
    let mut words = std::array::from_fn(|_| random.choose(&[i32::MIN, i32::MAX]));
    shrink(&mut words, large, random);
    words
}

/// How many turns clamped on which sides.
#[derive(Debug, Default)]
struct Turns {
    on_neither: u32,
    in_r_alone: u32,
    in_q_alone: u32,
    on_both: u32,
}

impl Turns {
    fn count(&mut self, clamps: Clamps) {
        let kind = match (clamps.r > 0, clamps.q > 0) {
            (false, false) => &mut self.on_neither,
            (true, false) => &mut self.in_r_alone,
            (false, true) => &mut self.in_q_alone,
            (true, true) => &mut self.on_both,
        };
        *kind += 1;
    }

    /// A few single turns in a row on each of many areas with arbitrary words in the large columns,
    /// and then the turns that remain in one Run.
    fn of_arbitrary_words(test: &'static str, seed: u64, large: Range<usize>) -> Self {
        let mut turns = Turns::default();
        for number in 0..AREAS {
            let case = Case::of_words(test, seed, number);
            let mut random = case.random();
            let mut both = Both::new(case);
            both.fill_area(&arbitrary(&large, &mut random));
            let first = random.below((TURNS - TURNS_PER_AREA + 1) as usize) as u32;
            let mut job = Job::new(first, 0);
            for _ in 0..TURNS_PER_AREA {
                let reply = both.run(job, 1);
                turns.count(reply.clamps);
                job = reply.job;
            }
            let rest = both.run(job, 120).clamps;
            both.require(large.start == 0 || rest.r == 0, "small words of R clamped");
            both.require(large.end == 32 || rest.q == 0, "small words of Q clamped");
        }
        println!("\nArbitrary words, {test}: {turns:?}");
        turns
    }
}

#[test]
fn turns_that_clamp_in_r_alone_agree() {
    let turns = Turns::of_arbitrary_words("large on the left", 601, LEFT);
    assert!(turns.in_r_alone >= ENOUGH, "few turns clamped in R");
    assert_eq!((turns.in_q_alone, turns.on_both), (0, 0));
}

#[test]
fn turns_that_clamp_in_q_alone_agree() {
    let turns = Turns::of_arbitrary_words("large on the right", 602, RIGHT);
    assert!(turns.in_q_alone >= ENOUGH, "few turns clamped in Q");
    assert_eq!((turns.in_r_alone, turns.on_both), (0, 0));
}

#[test]
fn turns_that_clamp_on_both_sides_agree() {
    let turns = Turns::of_arbitrary_words("large everywhere", 603, ALL);
    assert!(turns.on_both >= ENOUGH, "few turns clamped on both sides");
    assert!(turns.in_r_alone >= ENOUGH / 10, "few clamped in R alone");
    assert!(turns.in_q_alone >= ENOUGH / 10, "few clamped in Q alone");
}

/// The clamps of a Run, with words at the ends of the range in the large columns alone.
fn clamps_at_the_ends(large: Range<usize>, turn: u32, allowance: u16) -> Clamps {
    let case = Case::of_words("ends of the range", 604, u64::from(turn));
    let words = at_the_ends(&large, &mut case.random());
    let mut both = Both::new(case);
    both.fill_area(&words);
    both.run(Job::new(turn, 0), allowance).clamps
}

/// Two words at the ends of the range are a point on a diagonal. Unless a turn is by a multiple of
/// a right angle, it brings the point nearer to an axis, so that one of the two words passes the
/// range and the other does not: one clamp for each column that the turn works on.
#[test]
fn a_right_half_at_the_ends_clamps_in_q_alone() {
    for turn in 0..TURNS {
        let one = clamps_at_the_ends(RIGHT, turn, 1);
        assert_eq!(one, Clamps { r: 0, q: 16 }, "turn {turn}");
    }
    let all = clamps_at_the_ends(RIGHT, 0, 120);
    println!("\nA right half at the ends of the range, all turns: {all:?}");
    assert!(all.r == 0 && all.q > 16);
}

/// As in the right half, but for the columns before the leading one, which the turn leaves alone,
/// and for the leading one: its lower word becomes 0 and its upper one passes the range.
#[test]
fn a_left_half_at_the_ends_clamps_in_r_alone() {
    for (turn, rows) in (0..TURNS).zip(schedule::turns()) {
        let one = clamps_at_the_ends(LEFT, turn, 1);
        let r = 16 - rows.column as u32;
        assert_eq!(one, Clamps { r, q: 0 }, "turn {turn}");
    }
    let all = clamps_at_the_ends(LEFT, 0, 120);
    println!("\nA left half at the ends of the range, all turns: {all:?}");
    assert!(all.r > 16 && all.q == 0);
}

/// Columns 15 and 16 are among them, which meet where the sides do.
#[test]
fn a_column_alone_at_the_ends_clamps_on_its_own_side() {
    for column in ALL {
        let large = column..column + 1;
        for (turn, rows) in (0..TURNS).zip(schedule::turns()) {
            let expected = match column {
                _ if column < rows.column => Clamps::NONE,
                0..=15 => Clamps { r: 1, q: 0 },
                _ => Clamps { r: 0, q: 1 },
            };
            let one = clamps_at_the_ends(large.clone(), turn, 1);
            assert_eq!(one, expected, "turn {turn}, column {column}");
        }
        let all = clamps_at_the_ends(large, 0, 120);
        let sides = (all.r > 0, all.q > 0);
        assert_eq!(sides, (column < 16, column >= 16), "column {column}");
    }
}

/// Its upper word is clamped and counts; its lower one is stored as 0 and counts nothing.
#[test]
fn the_leading_column_alone_counts_once_and_in_r() {
    const MIN: i32 = i32::MIN;
    const MAX: i32 = i32::MAX;
    for (turn, rows) in (0..TURNS).zip(schedule::turns()) {
        for (upper, lower) in [(MIN, MIN), (MIN, MAX), (MAX, MIN), (MAX, MAX)] {
            let mut words = [0; AREA_WORDS];
            words[COLUMNS * rows.upper + rows.column] = upper;
            words[COLUMNS * rows.lower + rows.column] = lower;
            let mut both = Both::new(Case::of_words("leading column", 605, turn.into()));
            both.fill_area(&words);
            let clamps = both.run(Job::new(turn, 0), 1).clamps;
            assert_eq!(clamps, Clamps { r: 1, q: 0 });
            assert_eq!(both.area().word(rows.upper, rows.column), MAX);
            assert_eq!(both.area().word(rows.lower, rows.column), 0);
        }
    }
}

#[test]
fn instalments_add_up_on_each_side() {
    let mut seen = Clamps::NONE;
    for number in 0..300 {
        let case = Case::of_words("instalments", 606, number);
        let mut random = case.random();
        let words = arbitrary_area(&mut random);
        let mut at_once = Both::new(case.clone());
        at_once.fill_area(&words);
        let all = at_once.run(Job::LOADED, 120);
        let mut in_parts = Both::new(case);
        in_parts.fill_area(&words);
        let (mut job, mut sum) = (Job::LOADED, Clamps::NONE);
        while !job.is_finished() {
            let reply = in_parts.run(job, random.between(0, 50) as u16);
            sum += reply.clamps;
            job = reply.job;
        }
        let same = sum == all.clamps;
        in_parts.require(same, "instalments count other clamps than one Run");
        in_parts.require(job == all.job, "instalments make other turns than one Run");
        seen += sum;
    }
    assert!(seen.r > 0 && seen.q > 0);
}
