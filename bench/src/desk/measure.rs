//! What is timed, and on what.

use std::hint::black_box;
use std::time::Instant;

use hubqr::ffi::Shares;
use hubqr::{Desk, Role, AREA_WORDS, FIRST_SHARE, RESULT_RECORD_BYTES, ROUND_TURNS, SECTORS};
use reference::random::Random;

use super::agree::loaded;
use super::contenders::{Contender, BASE};
use crate::contenders::{Area, Buffer, Record, ACCEPTED, ENGINE, FINISHED};
use crate::inputs;

/// Who calls, since nobody else may make all calls.
const OPERATOR: u32 = Role::Operator.number();

/// The shares that are set.
const SHARES: Shares = Shares {
    shares: [1, 2, 3, 4, 5, 6, 7, 92],
};

#[derive(Clone, Copy, PartialEq, Eq)]
pub enum Measure {
    /// A hand-in for a finished job, which is loaded.
    Load,
    /// A hand-in that waits, in the place of another.
    Wait,
    /// A sector's Run with this request, which is granted.
    Run(u16),
    /// A Fetch while none waits.
    Fetch,
    /// A Fetch that brings in the matrix that waits.
    Next,
    /// A round by the first shares: its beginning and eight Runs.
    Round,
    /// All shares are set.
    Shares,
}

impl Measure {
    pub const ALL: [Measure; 9] = [
        Measure::Load,
        Measure::Wait,
        Measure::Run(0),
        Measure::Run(1),
        Measure::Run(FIRST_SHARE),
        Measure::Fetch,
        Measure::Next,
        Measure::Round,
        Measure::Shares,
    ];

    /// Whether a contender is timed at it. A host without a desk has no shares to set, and tests no
    /// record before it loads it.
    pub fn is_for(self, who: &Contender) -> bool {
        ![Measure::Wait, Measure::Shares].contains(&self) || who.name != BASE.name
    }

    /// The turns of a Run. In the other calls none are requested.
    fn request(self) -> u16 {
        match self {
            Measure::Run(request) => request,
            Measure::Round => FIRST_SHARE,
            _ => 0,
        }
    }

    /// Calls of a round, beside its beginning: those that are granted all its turns, or as many as it
    /// has turns.
    fn calls(self) -> u16 {
        let granted = ROUND_TURNS.checked_div(self.request());
        granted.unwrap_or(ROUND_TURNS)
    }
}

/// Fresh matrices of all sectors.
struct Matrices {
    full: [Record; SECTORS],
    /// Those whose areas can be fetched when they are loaded.
    finished: [Record; SECTORS],
}

impl Matrices {
    fn fresh(random: &mut Random) -> Matrices {
        Matrices {
            full: std::array::from_fn(|_| inputs::record(random)),
            finished: std::array::from_fn(|_| inputs::finished(random)),
        }
    }

    /// What a measure begins with: each area is loaded from the matrix of its sector, and that of the
    /// next sector waits, where one does, or is handed in.
    fn hub(&self, measure: Measure) -> Hub {
        let mut records = match measure {
            Measure::Fetch | Measure::Next => self.finished,
            _ => self.full,
        };
        let areas = records.map(|record| {
            let mut area = [0; AREA_WORDS];
            (ENGINE.load)(&record, &mut area);
            area
        });
        records.rotate_left(1);
        let mut desk = loaded();
        desk.records.copy_from_slice(records.as_flattened());
        if [Measure::Load, Measure::Fetch, Measure::Next].contains(&measure) {
            desk.jobs = [FINISHED; SECTORS];
        }
        if [Measure::Wait, Measure::Next].contains(&measure) {
            desk.waits = [1; SECTORS];
        }
        Hub {
            desk,
            areas,
            buffer: [0; RESULT_RECORD_BYTES],
            records,
        }
    }
}

/// Fresh matrices, and others for warming up, which are not timed.
pub struct Batch {
    warm_up: Matrices,
    timed: Matrices,
}

impl Batch {
    pub fn fresh(random: &mut Random) -> Batch {
        Batch {
            warm_up: Matrices::fresh(random),
            timed: Matrices::fresh(random),
        }
    }

    /// Nanoseconds of a contender's call, or of its round, on average over eight rounds. Those that
    /// request turns work the eight matrices to the end.
    pub fn time(&self, who: &Contender, measure: Measure) -> f64 {
        let (mut warm_up, mut timed) = (self.warm_up.hub(measure), self.timed.hub(measure));
        warm_up.work(who, measure);
        let start = Instant::now();
        let calls = timed.work(who, measure);
        let nanoseconds = start.elapsed().as_nanos() as f64;
        black_box((warm_up, timed));
        nanoseconds / f64::from(calls)
    }
}

/// What a host keeps, and what it hands in.
struct Hub {
    desk: Desk,
    areas: [Area; SECTORS],
    buffer: Buffer,
    records: [Record; SECTORS],
}

impl Hub {
    /// Serves the sectors one after the other, in as many rounds as the first shares take. Answers how
    /// often the measure was done.
    fn work(&mut self, who: &Contender, measure: Measure) -> u32 {
        let (mut number, mut done) = (0, 0);
        for _ in 0..SECTORS {
            match measure {
                Measure::Run(_) => self.desk.left = [FIRST_SHARE; SECTORS],
                Measure::Round => number |= (who.begin)(OPERATOR, &mut self.desk),
                _ => {}
            }
            for call in 0..measure.calls() {
                number |= self.call(who, measure, usize::from(call) % SECTORS);
            }
            done += match measure {
                Measure::Round => 1,
                _ => u32::from(measure.calls()),
            };
        }
        assert_eq!(number, 0, "{ACCEPTED}");
        done
    }

    /// One call for a sector, whose number is answered. What a load has made of the sector's job, and
    /// of what waits, is put back first.
    fn call(&mut self, who: &Contender, measure: Measure, sector: usize) -> u8 {
        let Hub {
            desk,
            areas,
            buffer,
            records,
        } = self;
        let (k, area) = (sector as u32, &mut areas[sector]);
        match measure {
            Measure::Load => {
                desk.jobs[sector] = FINISHED;
                (who.hand_in)(OPERATOR, desk, k, &records[sector], area).number
            }
            Measure::Wait => (who.hand_in)(OPERATOR, desk, k, &records[sector], area).number,
            Measure::Run(_) | Measure::Round => {
                (who.run)(OPERATOR, desk, k, measure.request(), area).number
            }
            Measure::Fetch => (who.fetch)(OPERATOR, desk, k, area, buffer),
            Measure::Next => {
                desk.jobs[sector] = FINISHED;
                desk.waits[sector] = 1;
                (who.fetch)(OPERATOR, desk, k, area, buffer)
            }
            Measure::Shares => (who.set_shares)(OPERATOR, desk, black_box(SHARES)),
        }
    }
}

#[cfg(test)]
mod tests {
    use super::*;
    use crate::desk::contenders::{desks, ENGINE};

    /// Whoever is timed does the same: works all matrices to the end where turns are requested, loads
    /// those that are loaded, and leaves the areas as they are in all other calls.
    #[test]
    fn all_do_the_same_work() {
        let batch = Batch::fresh(&mut Random::new(1));
        for measure in Measure::ALL {
            let worked = |who: &Contender| {
                let mut hub = batch.timed.hub(measure);
                (hub.work(who, measure), hub.areas, hub.buffer)
            };
            let expected = worked(&ENGINE);
            let changes = match measure {
                Measure::Load | Measure::Next => true,
                _ => measure.request() > 0,
            };
            assert_eq!(expected.1 != batch.timed.hub(measure).areas, changes);
            for who in desks().iter().chain(&[BASE]) {
                if measure.is_for(who) {
                    assert!(worked(who) == expected, "{}", who.name);
                }
            }
        }
    }

    /// A hand-in that is timed as one that waits does wait, and a Fetch brings in what it is said to.
    #[test]
    fn each_measure_is_what_it_is_called() {
        let batch = Batch::fresh(&mut Random::new(1));
        for (measure, waits, turn) in [
            (Measure::Load, 0, 0),
            (Measure::Wait, 1, 0),
            (Measure::Fetch, 0, 120),
            (Measure::Next, 0, 0),
        ] {
            let mut hub = batch.timed.hub(measure);
            hub.work(&ENGINE, measure);
            assert_eq!(hub.desk.waits, [waits; SECTORS]);
            assert!(hub.desk.jobs.iter().all(|job| job.turn == turn));
        }
    }
}
