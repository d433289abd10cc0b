//! Matrices through all calls, in every way of cutting their 120 turns into instalments. The cut
//! decides neither the result nor how many turns are made.

use reference::cases::Kind;
use reference::job::Job;
use reference::matrix::{Complex, Matrix};
use reference::random::Random;
use reference::records::{write_matrix, write_result};
use reference::schedule::TURNS;

use crate::common::{Both, Case};
use crate::trace::{Seen, Trace};

/// Matrices of each kind for the random cuts.
const PER_KIND: u64 = 30;

/// A Run from each number of turns to each later one. Every way to cut the turns is a list of such
/// Runs, since each finds the area and the job that the one before left. Answers the turns made.
fn every_cut(test: &'static str, seed: u64, matrix: &Matrix) -> u32 {
    let record = write_matrix(matrix);
    let case = Case::new(test, seed, 0, &record);
    let trace = Trace::of_record(case.clone(), &record, &mut Seen::default());
    let mut both = Both::new(case);
    for (from, area) in trace.areas.iter().enumerate() {
        let words = area.to_words();
        for (to, (area, job)) in trace.areas.iter().zip(&trace.jobs).enumerate().skip(from) {
            both.fill_area(&words);
            let reply = both.run(trace.jobs[from], (to - from) as u16);
            both.require(reply.job == *job, "a cut leads to another job");
            both.require(both.area() == *area, "a cut leads to another area");
        }
        both.fill_area(&words);
        let reply = both.run(trace.jobs[from], u16::MAX);
        both.require(reply.job == trace.end().1, "the rest leads to another job");
    }
    let made = trace.end().1.made;
    println!("\nEvery cut of {test}: {made} turns made in each");
    made
}

/// A random matrix of a kind in which some turns are made and some skipped.
fn of_kind(kind: Kind, seed: u64) -> Matrix {
    let made = |matrix: &Matrix| {
        let record = write_matrix(matrix);
        let case = Case::new("drawing", seed, 0, &record);
        Trace::of_record(case, &record, &mut Seen::default())
            .end()
            .1
            .made
    };
    let mut drawn = (0..).map(|number| kind.matrix(&mut Random::for_case(seed, number)));
    let mixed = drawn.find(|matrix| (1..TURNS).contains(&made(matrix)));
    mixed.expect("the numbers never end")
}

fn every_cut_of_kind(kind: Kind, seed: u64) {
    let made = every_cut(kind.name(), seed, &of_kind(kind, seed));
    assert!((1..TURNS).contains(&made));
}

#[test]
fn every_cut_of_diagonals() {
    every_cut_of_kind(Kind::Diagonal, 1031);
    let loudest = Matrix::from_fn(|_, _| Complex::ZERO).with_diagonal(|_| i16::MAX);
    assert_eq!(every_cut("the loudest diagonal", 1032, &loudest), 0);
}

#[test]
fn every_cut_of_a_half_empty_matrix() {
    every_cut_of_kind(Kind::HalfEmpty, 1033);
}

#[test]
fn every_cut_of_a_block_diagonal_matrix() {
    every_cut_of_kind(Kind::BlockDiagonal, 1034);
}

#[test]
fn every_cut_of_a_banded_matrix() {
    every_cut_of_kind(Kind::Banded, 1035);
}

#[test]
fn every_cut_of_a_real_triangle() {
    every_cut_of_kind(Kind::RealTriangular, 1036);
}

#[test]
fn every_cut_of_a_full_matrix() {
    let matrix = Kind::FullRange.matrix(&mut Random::new(1037));
    assert_eq!(every_cut("a full matrix", 1037, &matrix), TURNS);
}

/// Works a record to the end with Runs of these allowances, over and over, and answers the job and
/// the fetched record.
fn worked(case: &Case, record: &[u8], allowances: &[u16]) -> (Job, Vec<u8>) {
    let mut both = Both::new(case.clone());
    let mut job = both.load(record).job;
    for &allowance in allowances.iter().cycle() {
        if job.is_finished() {
            break;
        }
        job = both.run(job, allowance).job;
    }
    let reply = both.fetch(job);
    both.require(reply.number == 0, "a worked matrix was refused");
    (job, both.fetched())
}

/// One matrix through Load, Run, Fetch, Read and Whole.
fn compare_matrix(case: &Case, record: &[u8], seen: &mut Seen) {
    let trace = Trace::of_record(case.clone(), record, seen);
    let (area, job) = trace.end();
    let fetched = write_result(area);
    let mut random = case.random();
    let mut cuts = vec![vec![120], vec![u16::MAX], vec![119], vec![7, 0, 1]];
    for budget in [2, 30, 90] {
        cuts.push((0..9).map(|_| random.between(1, budget) as u16).collect());
    }
    for cut in cuts {
        let (other, record) = worked(case, record, &cut);
        assert!(other == job && record == fetched, "cut {cut:?}, {case}");
    }
    let mut both = Both::new(case.clone());
    let reply = both.whole(record);
    both.require(reply.number == 0, "Whole refused a matrix");
    both.require(both.fetched() == fetched, "Whole gives another result");
    let read = both.read(&fetched).job;
    both.require(read == Job::new(120, 0), "Read answered another job");
    let reply = both.fetch(read);
    both.require(reply.number == 0, "a read record was refused");
}

#[test]
fn matrices_of_every_kind_in_random_cuts() {
    for (kind, seed) in Kind::ALL.into_iter().zip(1041..) {
        let mut seen = Seen::default();
        for number in 0..PER_KIND {
            let record = write_matrix(&kind.matrix(&mut Random::for_case(seed, number)));
            let case = Case::new("random cuts", seed, number, &record);
            compare_matrix(&case, &record, &mut seen);
        }
        seen.print(&format!("Random cuts, {}", kind.name()));
        let often = Kind::WITH_ZEROS.contains(&kind);
        assert!(!often || seen.skipped > 500, "few turns were skipped");
    }
}
