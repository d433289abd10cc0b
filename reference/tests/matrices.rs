//! Matrices of every kind, worked in instalments and at once on the engine and the reference, with
//! the promised accuracy checked in exact whole numbers.

mod common;

use std::sync::atomic::{AtomicUsize, Ordering};
use std::thread;

use common::{Both, Case};
use reference::accuracy::Errors;
use reference::area::AREA_WORDS;
use reference::cases::{edges, Kind};
use reference::clamps::Clamps;
use reference::job::Job;
use reference::matrix::{Complex, Matrix};
use reference::random::Random;
use reference::records::{write_matrix, write_result, RESULT_RECORD};
use reference::replies::RunReply;
use reference::schedule::TURNS;

const TEST: &str = "matrices";
const PER_KIND: u64 = 1000;
/// All of them, as the documents say: 19 kinds, and 188 at the edges of the range.
const MATRICES: u64 = 19_188;

/// What was seen of one kind of matrix.
struct Tally {
    name: &'static str,
    matrices: u64,
    worst: Errors,
    /// The turns that were truly made, of all matrices together.
    made: u64,
    /// The most that one matrix cost.
    most: u32,
}

impl Tally {
    fn new(name: &'static str) -> Self {
        Tally {
            name,
            matrices: 0,
            worst: Errors::default(),
            made: 0,
            most: 0,
        }
    }

    fn add(&mut self, (errors, made): (Errors, u32)) {
        self.matrices += 1;
        self.worst = self.worst.max(errors);
        self.made += u64::from(made);
        self.most = self.most.max(made);
    }

    fn add_all(&mut self, other: &Tally) {
        self.matrices += other.matrices;
        self.worst = self.worst.max(other.worst);
        self.made += other.made;
        self.most = self.most.max(other.most);
    }

    fn print(&self) {
        let [product, rows, columns] = self.worst.shares();
        let Tally {
            name,
            matrices,
            worst: Errors { first_word, .. },
            made,
            most,
        } = self;
        let skipped = u64::from(TURNS) * matrices - made;
        println!(
            "{name:<18}{matrices:>9}{product:>14.6}{rows:>14.6}{columns:>14.6}{first_word:>12}\
             {made:>9}{skipped:>9}{most:>6}"
        );
    }
}

#[test]
fn worked_matrices_agree_and_are_accurate() {
    let mut tallies = in_parallel(Kind::ALL.len() + 1, |job| match Kind::ALL.get(job) {
        Some(&kind) => tally_kind(kind, job as u64),
        None => tally_edges(job as u64),
    });
    let mut all = Tally::new("all");
    for tally in &tallies {
        all.add_all(tally);
    }
    assert_eq!(all.matrices, MATRICES);
    assert_eq!(all.most, TURNS, "no matrix cost all turns");
    tallies.push(all);
    println!(
        "\nThe largest error seen, as a share of 2^44, and that of R's word (0, 0); turns made and \
         skipped:"
    );
    println!(
        "{:<18}{:>9}{:>14}{:>14}{:>14}{:>12}{:>9}{:>9}{:>6}",
        "kind",
        "matrices",
        "Q times R",
        "rows of Q",
        "columns of R",
        "R(0, 0)",
        "made",
        "skipped",
        "most"
    );
    tallies.iter().for_each(Tally::print);
}

/// So that bounds of 2^37 would be false, and so would a last diagonal word that is never negative.
#[test]
fn all_parts_32767_break_bounds_of_2_to_the_37() {
    let matrix = Matrix::from_fn(|_, _| Complex::new(i16::MAX, i16::MAX));
    let record = write_matrix(&matrix);
    let mut both = Both::new(Case::new("the loudest matrix", 0, 0, &record));
    both.lend(AREA_WORDS, RESULT_RECORD);
    assert_eq!(both.whole(&record).number, 0);
    let errors = both.errors();
    assert!(errors.product > 1 << 37 && errors.rows > 1 << 37 && errors.columns > 1 << 37);
    assert!(both.area().r(15, 15) < 0);
}

/// Does the jobs on all cores and gives their outcomes in order.
fn in_parallel<T: Send>(jobs: usize, work: impl Fn(usize) -> T + Sync) -> Vec<T> {
    let next = AtomicUsize::new(0);
    let worker = || {
        let mut done = Vec::new();
        loop {
            let job = next.fetch_add(1, Ordering::Relaxed);
            if job >= jobs {
                return done;
            }
            done.push((job, work(job)));
        }
    };
    let cores = thread::available_parallelism().map_or(1, |n| n.get());
    let mut done: Vec<(usize, T)> = thread::scope(|scope| {
        let workers: Vec<_> = (0..cores).map(|_| scope.spawn(worker)).collect();
        let outcomes = workers.into_iter().map(|w| w.join());
        outcomes.flat_map(|o| o.expect("a case failed")).collect()
    });
    done.sort_by_key(|(job, _)| *job);
    done.into_iter().map(|(_, outcome)| outcome).collect()
}

fn tally_kind(kind: Kind, seed: u64) -> Tally {
    let mut tally = Tally::new(kind.name());
    for number in 0..PER_KIND {
        let matrix = kind.matrix(&mut Random::for_case(seed, number));
        tally.add(compare_matrix(seed, number, &matrix));
    }
    tally
}

fn tally_edges(seed: u64) -> Tally {
    let mut tally = Tally::new("edges");
    for (number, matrix) in edges().iter().enumerate() {
        tally.add(compare_matrix(seed, number as u64, matrix));
    }
    tally
}

/// Takes one matrix through all five calls and answers its errors and the turns that it cost.
fn compare_matrix(seed: u64, number: u64, matrix: &Matrix) -> (Errors, u32) {
    let record = write_matrix(matrix);
    let case = Case::new(TEST, seed, number, &record);
    let mut random = case.random();
    let mut both = Both::new(case.clone());
    both.lend(
        AREA_WORDS + random.below(3),
        RESULT_RECORD + random.below(3),
    );
    let reply = both.load(&record);
    both.require(reply.number == 0, "Load refused a matrix that was heard");
    let job = work_in_instalments(&mut both, &mut random);
    let (errors, fetched) = (both.errors(), both.fetched());
    both.require(
        fetched == write_result(&both.area()),
        "the fetched record is not that of the area",
    );
    check_reading_back(&case, &fetched);
    check_whole(&case, &record, &fetched);
    check_one_run(&case, &record, job);
    (errors, job.made)
}

/// Works the loaded matrix to the end, fetches the result and answers the job. The budgets split
/// the work in different ways, and calls that must be refused stand between the Runs.
fn work_in_instalments(both: &mut Both, random: &mut Random) -> Job {
    let budget = random.choose(&[1, 3, 40, 130, 65535]);
    let (mut job, mut allowed) = (Job::LOADED, 0);
    while allowed < TURNS {
        if random.one_in(3) {
            refused_call(both, job, random);
        }
        let allowance = random.between(0, budget) as u16;
        allowed += u32::from(allowance);
        let turn = allowed.min(TURNS);
        let reply = both.run(job, allowance);
        let expected = RunReply {
            number: 0,
            job: Job::new(turn, reply.job.made),
            count: turn - job.turn,
            clamps: Clamps::NONE,
        };
        both.require(reply == expected, "Run answers something else than its sum");
        job = reply.job;
    }
    refused_call(both, job, random);
    let reply = both.fetch(job);
    both.require(reply.number == 0, "Fetch refused a worked matrix");
    job
}

/// A job that does not exist: a turn number beyond the last, or more turns made than there were.
fn no_job(job: Job, random: &mut Random) -> Job {
    let turn = random.choose(&[121, 122, 240, u32::MAX]);
    let made = random.choose(&[job.turn + 1, 121, u32::MAX]);
    random.choose(&[Job { turn, ..job }, Job { made, ..job }, Job { turn, made }])
}

/// Makes a call that the specification refuses, whatever the area holds.
fn refused_call(both: &mut Both, job: Job, random: &mut Random) {
    let no_job = no_job(job, random);
    let few_words = random.choose(&[0, 1, 511]);
    let few_bytes = random.choose(&[0, 1, 2048]);
    let (words, bytes) = both.lent();
    let number = match random.below(6) {
        0 => both.run(no_job, 9).number,
        1 => both.fetch(no_job).number,
        2 if !job.is_finished() => both.fetch(job).number,
        3 => {
            both.lend(few_words, bytes);
            both.run(job, 9).number
        }
        4 => {
            both.lend(few_words, bytes);
            both.fetch(job).number
        }
        _ => {
            both.lend(words, few_bytes);
            both.fetch(job).number
        }
    };
    both.lend(words, bytes);
    both.require(number != 0, "a call that had to be refused was accepted");
}

/// The record reads back to what was fetched, and is written again byte for byte.
fn check_reading_back(case: &Case, fetched: &[u8]) {
    let mut other = Both::new(case.clone());
    let reply = other.read(fetched);
    other.require(reply.number == 0, "Read refused a fetched record");
    other.require(reply.job == Job::new(120, 0), "Read answered another job");
    other.fetch(reply.job);
    other.require(
        other.fetched() == fetched,
        "a record was not written again byte for byte",
    );
}

/// Whole gives what the instalments gave.
fn check_whole(case: &Case, record: &[u8], fetched: &[u8]) {
    let mut other = Both::new(case.clone());
    let reply = other.whole(record);
    other.require(
        reply.number == 0 && reply.clamps == Clamps::NONE,
        "Whole refused or clamped",
    );
    other.require(
        other.fetched() == fetched,
        "Whole and the instalments differ",
    );
}

/// All turns in one Run make as many as the instalments made.
fn check_one_run(case: &Case, record: &[u8], job: Job) {
    let mut other = Both::new(case.clone());
    let loaded = other.load(record).job;
    let at_once = other.run(loaded, 120).job;
    other.require(at_once == job, "one Run and the instalments differ");
}
