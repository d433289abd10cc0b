//! Runs over areas that no Load filled: arbitrary words, which saturate.

mod common;

use common::words::{any_job, arbitrary_area};
use common::{Both, Case};
use reference::area::AREA_WORDS;
use reference::clamps::Clamps;
use reference::job::Job;

const AREAS: u64 = 4000;

#[test]
fn arbitrary_words_saturate_alike() {
    let (mut runs, mut clamps) = (0, Clamps::NONE);
    for number in 0..AREAS {
        let case = Case::of_words("arbitrary words", 101, number);
        let mut random = case.random();
        let mut both = Both::new(case);
        both.lend(AREA_WORDS + random.below(3), 2049);
        both.fill_area(&arbitrary_area(&mut random));
        let mut job = if random.one_in(2) {
            Job::LOADED
        } else {
            any_job(&mut random)
        };
        for _ in 0..random.between(1, 4) {
            let budget = random.choose(&[1, 12, 119, 120, 65535]);
            let reply = both.run(job, random.between(0, budget) as u16);
            runs += 1;
            clamps += reply.clamps;
            job = reply.job;
        }
        both.fetch(job);
    }
    let Clamps { r, q } = clamps;
    println!("\n{AREAS} areas of arbitrary words: {runs} runs, {r} clamps in R, {q} in Q");
    assert!(runs >= 2000);
    assert!(r >= 100_000, "saturation hardly happened in R");
    assert!(q >= 100_000, "saturation hardly happened in Q");
}

#[test]
fn a_run_over_all_turns_always_leaves_a_result() {
    for number in 0..300 {
        let case = Case::of_words("arbitrary words to the end", 102, number);
        let area = arbitrary_area(&mut case.random());
        let mut both = Both::new(case);
        both.fill_area(&area);
        let job = both.run(Job::LOADED, 120).job;
        let reply = both.fetch(job);
        both.require(reply.number == 0, "120 turns left no triangle");
    }
}

#[test]
fn areas_with_one_word_in_every_place() {
    for (number, word) in [i32::MIN, -1, 0, 1, i32::MAX].into_iter().enumerate() {
        let mut both = Both::new(Case::of_words("one word", 103, number as u64));
        both.fill_area(&[word; AREA_WORDS]);
        let reply = both.run(Job::LOADED, 120);
        let skipped = reply.job.made == 0;
        both.require(skipped == (word == 0), "only zeros are skipped throughout");
        let clamped = word == i32::MIN || word == i32::MAX;
        for side in [reply.clamps.r, reply.clamps.q] {
            both.require(clamped == (side > 0), "only the ends are clamped");
        }
        let reply = both.fetch(reply.job);
        both.require(reply.number == 0, "120 turns left no triangle");
    }
}
