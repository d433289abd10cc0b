//! What the engine writes, with its own matrix and with others.

use reference::area::AREA_WORDS;
use reference::cases::{edges, Kind};
use reference::job::Job;
use reference::matrix::{Complex, Matrix, ANTENNAS};
use reference::random::Random;
use reference::records::{parse_result, write_matrix, RESULT_RECORD};

use crate::common::desk::role::{FITTER, OPERATOR};
use crate::common::desk::{self, BothDesk, Call, Lent};
use crate::common::{Both, Case};
use crate::pair::{Family, Pair};
use crate::rules::{Compared, Rule};

/// Matrices of each kind.
const MATRICES: u64 = 40;

fn pair_of(matrix: &Matrix, result: &[u8]) -> Pair {
    Pair {
        matrix: matrix.clone(),
        area: parse_result(result).expect("the engine wrote it"),
    }
}

/// The result that Whole writes.
fn by_whole(matrix: &Matrix, case: Case) -> Vec<u8> {
    let mut both = Both::new(case);
    let reply = both.whole(&write_matrix(matrix));
    both.require(reply.number == 0, "Whole refused a matrix that was heard");
    both.fetched()
}

/// The result that Fetch writes after Load and Runs of some allowances.
fn by_instalments(matrix: &Matrix, case: Case) -> Vec<u8> {
    let mut random = case.random();
    let mut both = Both::new(case);
    let mut job = both.load(&write_matrix(matrix)).job;
    let most = random.choose(&[9, 50, 130]);
    while !job.is_finished() {
        job = both.run(job, random.between(0, most) as u16).job;
    }
    let reply = both.fetch(job);
    both.require(reply.number == 0, "Fetch refused a worked matrix");
    both.fetched()
}

/// The results of two matrices that are handed in one after the other. Each is fetched by a fitter and
/// by the operator, whose first Fetch brings in the second matrix.
fn by_the_desk(matrices: [&Matrix; 2], case: Case) -> [Vec<u8>; 2] {
    let mut seen = desk::Seen::default();
    let mut random = case.random();
    let sector = random.below(8) as u32;
    let mut both = BothDesk::new(case, &mut seen);
    let mut accepted = |call: Call, role| {
        let reply = both.call(role, &call, Lent::area(sector as usize));
        both.require(reply.number == 0, "a call at the desk was refused");
        (reply.job, both.fetched().to_vec())
    };
    for matrix in matrices {
        let record = write_matrix(matrix).to_vec();
        accepted(Call::HandIn { sector, record }, OPERATOR);
    }
    let request = 15;
    [0, 1].map(|_| {
        let mut job = Job::LOADED;
        while !job.is_finished() {
            accepted(Call::Begin, OPERATOR);
            job = accepted(Call::Run { sector, request }, OPERATOR).0;
        }
        let by_fitter = accepted(Call::Fetch { sector }, FITTER).1;
        let by_operator = accepted(Call::Fetch { sector }, OPERATOR).1;
        assert_eq!(by_fitter, by_operator);
        by_operator
    })
}

#[test]
fn what_the_engine_writes_gets_yes() {
    let mut compared = Compared::new(Rule::OF_RIGHT_RESULTS);
    for (kind, seed) in Kind::ALL.into_iter().zip(1351..) {
        for number in 0..MATRICES {
            let case = Case::of_words("what the engine writes", seed, number);
            let mut random = Random::for_case(seed, !number);
            let [matrix, next] = [kind.matrix(&mut random), kind.matrix(&mut random)];
            let [first, second] = by_the_desk([&matrix, &next], case.clone());
            let pairs = [
                (&matrix, by_whole(&matrix, case.clone())),
                (&matrix, by_instalments(&matrix, case)),
                (&matrix, first),
                (&next, second),
            ];
            for (matrix, result) in pairs {
                let pair = pair_of(matrix, &result);
                let reply = compared.verify("what the engine writes", seed, number, &pair);
                assert!(reply.yes, "{}, {number}: {reply:?}", kind.name());
            }
        }
    }
    for (matrix, number) in edges().iter().zip(0..) {
        let case = Case::of_words("edges", 1371, number);
        let pair = pair_of(matrix, &by_whole(matrix, case));
        assert!(compared.verify("edges", 1371, number, &pair).yes);
    }
    compared.print_and_require_all_rules("What the engine writes, with its matrix");
    let results = 4 * 19 * MATRICES + 188;
    assert_eq!((compared.seen.yes, compared.seen.no), (results, 0));
}

/// The result of Whole by the reference, which is the engine's.
fn worked(matrix: Matrix) -> Pair {
    let (mut area, mut result) = ([0; AREA_WORDS], [0; RESULT_RECORD]);
    let reply = reference::calls::whole(&write_matrix(&matrix), &mut area, &mut result);
    assert_eq!(reply.number, 0);
    pair_of(&matrix, &result)
}

/// The same matrix with one part that many steps away.
fn stepped(matrix: &Matrix, steps: i16, random: &mut Random) -> Matrix {
    let place = (random.below(ANTENNAS), random.below(ANTENNAS));
    let (real, up) = (random.one_in(2), random.one_in(2));
    let step = |part: i16| {
        let steps = if up { steps } else { -steps };
        part.checked_add(steps).unwrap_or(part - steps)
    };
    Matrix::from_fn(|i, j| {
        let Complex { re, im } = matrix.element(i, j);
        match real {
            _ if (i, j) != place => Complex::new(re, im),
            true => Complex::new(step(re), im),
            false => Complex::new(re, step(im)),
        }
    })
}

/// A step is 2^43, half of the bound: one step more gets yes and three get no; at two it goes by the
/// sign of the error that the engine left there.
#[test]
fn a_part_that_is_some_steps_away() {
    let mut compared = Compared::new([
        Rule::Bound(Family::Product, 43),
        Rule::Bound(Family::Product, 45),
        Rule::OnlyBelow(Family::Product),
        Rule::OnlyAbove(Family::Product),
        Rule::Alone(Family::Rows),
    ]);
    let mut answers = Vec::new();
    for steps in 1..=4 {
        let before = (compared.seen.yes, compared.seen.no);
        for (kind, seed) in Kind::ALL.into_iter().zip(1381..) {
            for number in 0..MATRICES {
                let mut random = Random::for_case(seed, number);
                let mut pair = worked(kind.matrix(&mut random));
                pair.matrix = stepped(&pair.matrix, steps, &mut random);
                compared.verify("some steps away", seed, number, &pair);
            }
        }
        let Compared { seen, .. } = &compared;
        answers.push((steps, seen.yes - before.0, seen.no - before.1));
    }
    compared.print_and_require_all_rules("Results with a part some steps away");
    println!("steps, yes and no: {answers:?}");
    let [one, two, three, four] = answers[..] else {
        panic!("four numbers of steps");
    };
    assert!(one.2 == 0 && three.1 == 0 && four.1 == 0);
    assert!(two.1 > 0 && two.2 > 0);
}

#[test]
fn results_of_other_matrices_get_no() {
    let mut compared = Compared::new([Rule::Alone(Family::Rows)]);
    for (kind, seed) in Kind::ALL.into_iter().zip(1401..) {
        for number in 0..2 * MATRICES {
            let mut random = Random::for_case(seed, number);
            let mut pair = worked(kind.matrix(&mut random));
            let others = random.choose(&[kind, Kind::FullRange, Kind::Tiny]);
            pair.matrix = others.matrix(&mut random);
            compared.verify("other matrices", seed, number, &pair);
        }
    }
    compared.print_and_require_all_rules("Results with another matrix");
    assert!(compared.seen.no > 50 * compared.seen.yes);
}
