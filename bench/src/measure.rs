//! What is timed, and on what.

use std::hint::black_box;
use std::time::Instant;

use reference::random::Random;

use crate::contenders::{Area, Buffer, Contender, Record, ENGINE, LOADED};
use crate::doubles::Comparator;
use crate::{inputs, timed};

const TURNS: u16 = hubqr::TURNS as u16;

#[derive(Clone, Copy, Debug, PartialEq, Eq)]
pub enum Measure {
    /// A record in, a record out.
    Whole,
    /// Run with allowance 1, at each of the 120 turn numbers of a loaded matrix.
    Rotation,
    /// All rotations of words that no Load could have filled.
    Arbitrary,
    /// Run from turn number 0 with this allowance.
    Run(u16),
    Load,
    Fetch,
    /// Whole of a matrix of which half is empty.
    HalfEmpty,
    /// Whole of a matrix that has nothing but a diagonal.
    Diagonal,
}

impl Measure {
    pub const ALLOWANCES: [u16; 4] = [1, 10, 60, TURNS];

    pub fn all() -> Vec<Measure> {
        let mut all = vec![Measure::Whole, Measure::Rotation, Measure::Arbitrary];
        all.extend(Measure::ALLOWANCES.map(Measure::Run));
        all.extend([Measure::Load, Measure::Fetch]);
        all.extend([Measure::HalfEmpty, Measure::Diagonal]);
        all
    }

    /// Inputs that are timed together: enough for the clock to be exact, and so few that most
    /// batches are over before another program takes the core.
    fn batch(self) -> usize {
        match self {
            Measure::Whole | Measure::Rotation | Measure::Arbitrary | Measure::Run(60..) => 4,
            Measure::HalfEmpty => 4,
            Measure::Run(_) | Measure::Load | Measure::Fetch | Measure::Diagonal => 16,
        }
    }

    /// The record that an input starts from.
    fn record(self, random: &mut Random) -> Record {
        match self {
            Measure::HalfEmpty => inputs::half_empty(random),
            Measure::Diagonal => inputs::diagonal(),
            _ => inputs::record(random),
        }
    }

    /// The area that an input starts from.
    fn area(self, record: &Record, random: &mut Random) -> Area {
        let mut area = [0; hubqr::AREA_WORDS];
        match self {
            Measure::Whole | Measure::HalfEmpty | Measure::Diagonal | Measure::Load => {}
            Measure::Arbitrary => area = inputs::words(random),
            Measure::Rotation | Measure::Run(_) => _ = (ENGINE.load)(record, &mut area),
            Measure::Fetch => {
                (ENGINE.load)(record, &mut area);
                (ENGINE.run)(LOADED, TURNS, &mut area);
            }
        }
        area
    }

    /// Does it on one input, and answers how often.
    fn work(self, who: &Contender, record: &Record, area: &mut Area, buffer: &mut Buffer) -> u32 {
        match self {
            Measure::Whole | Measure::HalfEmpty | Measure::Diagonal => {
                (who.whole)(record, area, buffer);
            }
            Measure::Arbitrary => _ = (who.run)(LOADED, TURNS, area),
            Measure::Run(allowance) => _ = (who.run)(LOADED, allowance, area),
            Measure::Load => _ = (who.load)(record, area),
            Measure::Fetch => (who.fetch)(area, buffer),
            Measure::Rotation => {
                let mut job = LOADED;
                for _ in 0..hubqr::TURNS {
                    (job, _) = (who.run)(job, 1, area);
                }
                return hubqr::TURNS;
            }
        }
        1
    }
}

/// Fresh inputs of a measure. The first is for warming up and is not timed.
pub struct Batch {
    measure: Measure,
    inputs: Vec<(Record, Area)>,
}

impl Batch {
    pub fn fresh(measure: Measure, random: &mut Random) -> Self {
        let input = |_| {
            let record = measure.record(random);
            (record, measure.area(&record, random))
        };
        Batch {
            measure,
            inputs: (0..=measure.batch()).map(input).collect(),
        }
    }

    /// Nanoseconds of a contender's call on average.
    pub fn time(&self, contender: &Contender) -> f64 {
        let mut inputs = self.inputs.clone();
        let mut buffer = [0; hubqr::RESULT_RECORD_BYTES];
        let ((record, area), timed) = inputs.split_first_mut().expect("one is for warming up");
        self.measure.work(contender, record, area, &mut buffer);
        let mut calls = 0;
        let start = Instant::now();
        for (record, area) in timed {
            calls += self.measure.work(contender, record, area, &mut buffer);
        }
        let nanoseconds = start.elapsed().as_nanos() as f64;
        black_box((inputs, buffer));
        nanoseconds / f64::from(calls)
    }

    /// Nanoseconds of a factorization in double on average.
    pub fn time_double(&self, comparator: &Comparator) -> f64 {
        let (mut q, mut r) = ([0.0; 256], [0.0; 256]);
        let nanoseconds = timed::mean(&self.inputs, |(record, _)| {
            (comparator.factor)(record, &mut q, &mut r);
        });
        black_box((q, r));
        nanoseconds
    }
}
