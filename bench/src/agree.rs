//! Before anything is timed: every contender answers what the engine answers, in every word and
//! byte, and makes as many turns.

use hubqr::Job;
use reference::cases::{edges, Kind};
use reference::matrix::Matrix;
use reference::random::Random;
use reference::records::write_matrix;

use crate::contenders::{Area, Buffer, Clamps, Contender, Record, ENGINE, LOADED};
use crate::doubles::{product_error, Comparator};
use crate::inputs;

const PER_KIND: usize = 20;
const AREAS: usize = 200;
const INSTALMENT: u16 = 7;

/// Far above what doubles lose in 16 by 16, far below what a wrong factorization shows.
const TOLERANCE: f64 = 1e-12;

/// What a factorization leaves behind.
#[derive(PartialEq)]
struct Outcome {
    heard: u8,
    clamps: Clamps,
    area: Area,
    buffer: Buffer,
}

/// The first disagreement with the engine, if there is one.
pub fn check(contender: &Contender, seed: u64) -> Result<(), String> {
    let mut random = Random::new(seed);
    for matrix in matrices(&mut random) {
        let record = write_matrix(&matrix);
        let (job, expected) = in_parts(&ENGINE, &record);
        if at_once(contender, &record) != expected
            || in_parts(contender, &record) != (job, expected)
        {
            return Err(format!(
                "{} and the engine differ on {matrix:?}",
                contender.name
            ));
        }
    }
    for _ in 0..AREAS {
        let words = inputs::words(&mut random);
        if worked(contender, words) != worked(&ENGINE, words) {
            return Err(format!(
                "{} and the engine differ on {words:?}",
                contender.name
            ));
        }
    }
    Ok(())
}

/// The first matrix whose factors in double do not give it back, if there is one.
pub fn check_double(comparator: &Comparator, seed: u64) -> Result<(), String> {
    for matrix in matrices(&mut Random::new(seed)) {
        let (mut q, mut r) = ([0.0; 256], [0.0; 256]);
        (comparator.factor)(&write_matrix(&matrix), &mut q, &mut r);
        let (q, r) = ((comparator.real)(&q), (comparator.real)(&r));
        let error = product_error(&matrix.to_real(), &q, &r);
        if error.is_nan() || error > TOLERANCE {
            return Err(format!(
                "{}: error {error:e} on {matrix:?}",
                comparator.name
            ));
        }
    }
    Ok(())
}

/// Matrices of all kinds, in each of which an antenna is heard.
pub fn matrices(random: &mut Random) -> Vec<Matrix> {
    let mut matrices = edges();
    for kind in Kind::ALL {
        matrices.extend((0..PER_KIND).map(|_| kind.matrix(random)));
    }
    matrices
}

fn at_once(contender: &Contender, record: &Record) -> Outcome {
    let (mut area, mut buffer) = ([0; 512], [0; 2049]);
    let (heard, clamps) = (contender.whole)(record, &mut area, &mut buffer);
    Outcome {
        heard,
        clamps,
        area,
        buffer,
    }
}

/// Answers the job at the end as well.
fn in_parts(contender: &Contender, record: &Record) -> (Job, Outcome) {
    let (mut area, mut buffer) = ([0; 512], [0; 2049]);
    let heard = (contender.load)(record, &mut area);
    let (job, clamps) = run_in_instalments(contender, &mut area);
    (contender.fetch)(&area, &mut buffer);
    let outcome = Outcome {
        heard,
        clamps,
        area,
        buffer,
    };
    (job, outcome)
}

fn worked(contender: &Contender, mut words: Area) -> (Job, Clamps, Area) {
    let (job, clamps) = run_in_instalments(contender, &mut words);
    (job, clamps, words)
}

/// Answers the job at the end, and the clamps of all instalments, by side.
fn run_in_instalments(contender: &Contender, area: &mut Area) -> (Job, Clamps) {
    let (mut job, mut clamps) = (LOADED, Clamps::default());
    for _ in 0..hubqr::TURNS.div_ceil(INSTALMENT.into()) {
        let (next, more) = (contender.run)(job, INSTALMENT, area);
        job = next;
        clamps.r += more.r;
        clamps.q += more.q;
    }
    (job, clamps)
}

#[cfg(test)]
mod tests {
    use super::*;

    fn agrees(run: fn(Job, u16, &mut Area) -> (Job, Clamps)) -> bool {
        let name = "tested";
        let who = Contender {
            name,
            run,
            ..ENGINE
        };
        check(&who, 1).is_ok()
    }

    #[test]
    fn wrong_jobs_are_noticed() {
        assert!(agrees(ENGINE.run));
        assert!(!agrees(|job, allowance, area| {
            let (job, clamps) = (ENGINE.run)(job, allowance, area);
            let made = job.turn; // as if no turn were clear
            (Job { made, ..job }, clamps)
        }));
        assert!(!agrees(|job, allowance, area| {
            let (_, clamps) = (ENGINE.run)(job, allowance, area);
            (job, clamps)
        }));
    }
}
