//! Areas that are worked already: upper triangular, with none of the first fifteen diagonal words
//! negative. No turn changes them, whatever their words are.

use reference::area::{WorkArea, AREA_WORDS};
use reference::job::Job;
use reference::matrix::REAL_SIZE;
use reference::random::Random;
use reference::records::write_result;
use reference::replies::RunReply;

use crate::common::words::{any_job, arbitrary_area};
use crate::common::{Both, Case};
use crate::trace::{one_turn, Seen};

/// Arbitrary words with a triangle. Some of its diagonal words are 0, and the last may be negative.
fn triangle(random: &mut Random) -> WorkArea {
    let mut area = WorkArea::from_words(&arbitrary_area(random));
    for i in 0..REAL_SIZE {
        (0..i).for_each(|j| area.set_word(i, j, 0));
        if i < REAL_SIZE - 1 {
            area.set_word(i, i, area.r(i, i).saturating_abs());
        }
        if random.one_in(20) {
            area.set_word(i, i, 0);
        }
    }
    area
}

/// Runs from any job to the end in any instalments.
#[test]
fn a_triangle_is_left_as_it_is_from_any_job_on() {
    let mut runs = 0;
    for number in 0..2000 {
        let case = Case::of_words("triangles", 1021, number);
        let mut random = case.random();
        let words = triangle(&mut random).to_words();
        let mut both = Both::new(case);
        both.fill_area(&words);
        let mut job = any_job(&mut random);
        let budget = random.choose(&[1, 10, 65535]);
        while !job.is_finished() {
            let allowance = random.between(0, budget) as u16;
            let count = u32::from(allowance).min(120 - job.turn);
            let due = RunReply {
                job: Job::new(job.turn + count, job.made),
                count,
                ..RunReply::default()
            };
            let reply = both.run(job, allowance);
            both.require(reply == due, &format!("{reply:?}, due {due:?}"));
            both.require(both.area().to_words() == words, "a triangle was changed");
            (job, runs) = (reply.job, runs + 1);
        }
    }
    println!("\nTriangles: {runs} runs that made no turn");
}

/// What is fetched of a triangle reads back to the job (120, 0), which is fetched again.
#[test]
fn a_triangle_goes_through_run_fetch_and_read() {
    for number in 0..500 {
        let case = Case::of_words("triangles to the end", 1022, number);
        let area = triangle(&mut case.random());
        let mut both = Both::new(case.clone());
        both.fill_area(&area.to_words());
        let job = both.run(Job::LOADED, 120).job;
        both.require(job == Job::new(120, 0), "a triangle cost turns");
        let reply = both.fetch(job);
        both.require(reply.number == 0, "a triangle was refused");
        let fetched = both.fetched();
        both.require(fetched == write_result(&area), "another record was fetched");
        let mut other = Both::new(case);
        let job = other.read(&fetched).job;
        other.require(job == Job::new(120, 0), "Read answered another job");
        let reply = other.run(job, 9);
        other.require(reply.job == job && reply.count == 0, "turns after the last");
        other.require(other.area() == area, "another area was read");
        let reply = other.fetch(job);
        other.require(reply.number == 0, "a read record was refused");
        other.require(
            other.fetched() == fetched,
            "not written again byte for byte",
        );
    }
}

/// Puts one word into a triangle and works it to the end, one turn at a time.
fn with_one_word((i, j): (usize, usize), word: i32, seen: &mut Seen) {
    let case = Case::of_words("broken triangles", 1023, (REAL_SIZE * i + j) as u64);
    let mut area = triangle(&mut case.random());
    area.set_word(i, j, word);
    let mut both = Both::new(case);
    both.fill_area(&area.to_words());
    let mut job = Job::LOADED;
    while !job.is_finished() {
        job = one_turn(&mut both, job, seen);
    }
    both.require(job.made > 0, "a word that had to go cost no turn");
    let reply = both.fetch(job);
    both.require(reply.number == 0, "120 turns left no triangle");
}

#[test]
fn one_word_that_has_to_go_is_turned() {
    let mut seen = Seen::default();
    for i in 0..REAL_SIZE {
        for word in [i32::MIN, -1, 1, i32::MAX] {
            (0..i).for_each(|j| with_one_word((i, j), word, &mut seen));
        }
        if i < REAL_SIZE - 1 {
            with_one_word((i, i), i32::MIN, &mut seen);
            with_one_word((i, i), -1, &mut seen);
        }
    }
    seen.print("Triangles with a word that has to go");
    assert!(seen.skipped > seen.made);
}

#[test]
fn an_area_of_zeros_is_left_as_it_is() {
    let mut both = Both::new(Case::of_words("zeros", 1024, 0));
    both.fill_area(&[0; AREA_WORDS]);
    let reply = both.run(Job::LOADED, 120);
    both.require(reply.job == Job::new(120, 0), "zeros were turned");
    both.require(both.area().to_words() == [0; AREA_WORDS], "zeros changed");
}
