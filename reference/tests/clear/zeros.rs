//! Areas of arbitrary words with many zeros.

use reference::area::{AREA_WORDS, COLUMNS};
use reference::job::Job;
use reference::random::Random;

use crate::common::words::{any_job, arbitrary_area};
use crate::common::{Both, Case};
use crate::trace::{one_turn, Seen};

const AREAS: u64 = 1000;

/// Arbitrary words, each of which is left with the same chance. The others become 0.
fn area_with_zeros(random: &mut Random) -> [i32; AREA_WORDS] {
    let rarity = random.choose(&[2, 4, 10, 40, 150]);
    arbitrary_area(random).map(|word| if random.one_in(rarity) { word } else { 0 })
}

/// The turns of a few Runs, and the same turns one at a time.
#[test]
fn areas_with_many_zeros_agree() {
    let mut seen = Seen::default();
    for number in 0..AREAS {
        let case = Case::of_words("many zeros", 1011, number);
        let mut random = case.random();
        let words = area_with_zeros(&mut random);
        let [mut both, mut by_turns] = [case.clone(), case].map(Both::new);
        both.fill_area(&words);
        by_turns.fill_area(&words);
        let mut job = match random.one_in(2) {
            true => Job::LOADED,
            false => any_job(&mut random),
        };
        for _ in 0..random.between(1, 4) {
            let (mut single, mut alone) = (job, Seen::default());
            let reply = both.run(job, random.between(0, 60) as u16);
            for _ in 0..reply.count {
                single = one_turn(&mut by_turns, single, &mut alone);
            }
            both.require(single == reply.job, "single turns end in another job");
            both.require(alone.clamps == reply.clamps, "single turns clamp otherwise");
            let same = both.area() == by_turns.area();
            both.require(same, "single turns leave another area");
            seen.made += alone.made;
            seen.skipped += alone.skipped;
            seen.clamps += alone.clamps;
            job = reply.job;
        }
        both.fetch(job);
    }
    seen.print("Areas with many zeros");
    assert!(seen.made > 10_000 && seen.skipped > 10_000);
    assert!(seen.clamps.r > 0 && seen.clamps.q > 0);
}

/// A single word in an area of zeros, at each place. It costs nothing above the diagonal, nor on it
/// where it is positive or no turn leads; otherwise at most a turn in each stage of its column.
#[test]
fn one_word_in_an_area_of_zeros() {
    let (mut seen, mut most) = (Seen::default(), 0);
    for (place, number) in (0..AREA_WORDS).zip(0..) {
        let (row, column) = (place / COLUMNS, place % COLUMNS);
        for word in [i32::MIN, -1, 1, i32::MAX] {
            let mut both = Both::new(Case::of_words("one word", 1012, number));
            let mut words = [0; AREA_WORDS];
            words[place] = word;
            both.fill_area(&words);
            let mut job = Job::LOADED;
            while !job.is_finished() {
                job = one_turn(&mut both, job, &mut seen);
            }
            let stays = row < column || (row == column && (word > 0 || row == 15));
            both.require(
                stays == (job.made == 0),
                "turned, or left, against the rule",
            );
            most = most.max(job.made);
        }
    }
    seen.print("One word in an area of zeros");
    assert_eq!(most, 4, "sixteen rows have four stages");
}
