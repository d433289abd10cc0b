//! What matrices cost: none of the turns, and all of them.

use reference::area::WorkArea;
use reference::cases::Kind;
use reference::clamps::Clamps;
use reference::job::Job;
use reference::matrix::{Complex, Matrix, ANTENNAS, REAL_SIZE};
use reference::random::Random;
use reference::records::{write_matrix, write_result};
use reference::schedule::TURNS;

use crate::common::{Both, Case};
use crate::trace::{Seen, Trace};

fn diagonal(re: impl FnMut(usize) -> i16) -> Matrix {
    Matrix::from_fn(|_, _| Complex::ZERO).with_diagonal(re)
}

/// R with these words on the diagonal and 0 elsewhere, and Q one.
fn is_diagonal_with_q_one(area: &WorkArea, diagonal: impl Fn(usize) -> i32) -> bool {
    let mut places = (0..REAL_SIZE).flat_map(|i| (0..REAL_SIZE).map(move |j| (i, j)));
    places.all(|(i, j)| {
        let (r, q) = if i == j {
            (diagonal(i), 1_073_741_824)
        } else {
            (0, 0)
        };
        (area.r(i, j), area.q(i, j)) == (r, q)
    })
}

/// Works a matrix in which nothing is to be cleared, in Runs of each size and by Whole.
fn costs_nothing(case: &Case, matrix: &Matrix, words: impl Fn(usize) -> i32) {
    let record = write_matrix(matrix);
    for allowance in [1, 2, 7, 119, 120, u16::MAX] {
        let mut both = Both::new(case.clone());
        let mut job = both.load(&record).job;
        while !job.is_finished() {
            let reply = both.run(job, allowance);
            both.require(reply.clamps == Clamps::NONE, "a word was clamped");
            job = reply.job;
        }
        both.require(job == Job::new(120, 0), "a diagonal cost turns");
        let area = both.area();
        both.require(is_diagonal_with_q_one(&area, &words), "another result");
        let reply = both.fetch(job);
        both.require(reply.number == 0, "a diagonal was refused");
        both.require(both.fetched() == write_result(&area), "another record");
    }
    let mut both = Both::new(case.clone());
    let reply = both.whole(&record);
    both.require(reply.number == 0, "Whole refused a diagonal");
    let same = is_diagonal_with_q_one(&both.area(), &words);
    both.require(same, "Whole gives another result");
}

#[test]
fn a_diagonal_of_32767_comes_back_as_it_is() {
    let matrix = diagonal(|_| 32_767);
    let case = Case::new("loudest diagonal", 1091, 0, &write_matrix(&matrix));
    costs_nothing(&case, &matrix, |_| 268_427_264);
}

#[test]
fn diagonals_with_no_negative_part_cost_nothing() {
    for number in 0..200 {
        let mut random = Random::for_case(1092, number);
        let mut parts: [i16; ANTENNAS] = std::array::from_fn(|_| random.part() & i16::MAX);
        parts[random.below(ANTENNAS)] = random.choose(&[0, 1, i16::MAX]);
        parts[0] = parts[0].max(17);
        let matrix = diagonal(|k| parts[k]);
        let case = Case::new("diagonals", 1092, number, &write_matrix(&matrix));
        costs_nothing(&case, &matrix, |i| i32::from(parts[i % ANTENNAS]) * 8192);
    }
}

/// The turn that changes the sign of a row changes that of the row below, too, and so on down to
/// the row where the element stands a second time, eight rows further on.
#[test]
fn a_negative_part_on_the_diagonal_costs_eight_turns() {
    for antenna in 0..ANTENNAS {
        let matrix = diagonal(|k| if k == antenna { -300 } else { 300 });
        let record = write_matrix(&matrix);
        let case = Case::new("a negative part", 1093, antenna as u64, &record);
        let trace = Trace::of_record(case, &record, &mut Seen::default());
        let (area, job) = trace.end();
        assert_eq!(job, Job::new(120, 8), "antenna {antenna}");
        assert!(area.has_nonnegative_diagonal());
    }
}

/// Each turn finds something to clear, so that the made part is the turn number all the way.
#[test]
fn a_full_matrix_costs_all_turns() {
    let mut seen = Seen::default();
    let record = write_matrix(&Kind::FullRange.matrix(&mut Random::new(1094)));
    let case = Case::new("a full matrix", 1094, 0, &record);
    let trace = Trace::of_record(case, &record, &mut seen);
    for (turn, job) in (0..=TURNS).zip(&trace.jobs) {
        assert_eq!(*job, Job { turn, made: turn });
    }
    seen.print("A full matrix");
}
