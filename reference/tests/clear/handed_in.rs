//! Runs that are handed any number of turns made before: the made part of the job is added to, and
//! decides nothing else.

use reference::cases::Kind;
use reference::job::Job;
use reference::random::Random;
use reference::records::write_matrix;

use crate::common::words::arbitrary_area;
use crate::common::{Both, Case};
use crate::trace::{Seen, Trace};

/// Each turn number with each number of turns made from 0 up to it.
fn every_job() -> impl Iterator<Item = Job> {
    (0..=120).flat_map(|turn| (0..=turn).map(move |made| Job { turn, made }))
}

#[test]
fn run_adds_to_every_job() {
    for (kind, seed) in Kind::WITH_ZEROS.into_iter().zip(1071..) {
        let record = write_matrix(&kind.matrix(&mut Random::new(seed)));
        let case = Case::new("every job", seed, 0, &record);
        let trace = Trace::of_record(case.clone(), &record, &mut Seen::default());
        let (mut both, mut random, mut grown) = (Both::new(case.clone()), case.random(), 0);
        for job in every_job() {
            let allowance = random.between(0, 6) as u16;
            let from = job.turn as usize;
            let to = (from + usize::from(allowance)).min(120);
            let made = trace.jobs[to].made - trace.jobs[from].made;
            both.fill_area(&trace.areas[from].to_words());
            let reply = both.run(job, allowance);
            let due = Job::new(to as u32, job.made + made);
            both.require(reply.job == due, &format!("{:?}, due {due:?}", reply.job));
            both.require(both.area() == trace.areas[to], "another area");
            grown += made;
        }
        println!("\nEvery job, {}: {grown} turns made", kind.name());
    }
}

/// Of words anywhere in the range every turn is made, so that the made part stays at its limit,
/// which is the turn number.
#[test]
fn the_made_part_reaches_the_turn_number_and_no_more() {
    for turn in 0..=120 {
        let case = Case::of_words("all made", 1081, turn.into());
        let mut random = case.random();
        for allowance in [0, 1, 5, u16::MAX] {
            let mut both = Both::new(case.clone());
            both.fill_area(&std::array::from_fn(|_| random.word()));
            let next = both.run(Job { turn, made: turn }, allowance).job;
            both.require(next.made == next.turn, "a turn was skipped");
        }
    }
}

/// A finished job has nothing left to make, whatever the area holds.
#[test]
fn a_finished_job_stays_as_it_is() {
    for made in 0..=120 {
        let case = Case::of_words("finished", 1082, made.into());
        let words = arbitrary_area(&mut case.random());
        let mut both = Both::new(case);
        both.fill_area(&words);
        for allowance in [0, 1, 120, u16::MAX] {
            let reply = both.run(Job::new(120, made), allowance);
            both.require(reply.job == Job::new(120, made), "the job changed");
            both.require(reply.count == 0, "turns after the last");
            both.require(both.area().to_words() == words, "the area changed");
        }
    }
}
