//! What is timed, and on what.

use std::hint::black_box;
use std::time::Instant;

use hubqr::{LOG_HEARD, LOG_RESULT, LOG_RESULT_BYTES};

use super::contenders::Contender;
use super::logs::{Of, RECORD};
use crate::contenders::ACCEPTED;

/// The day of all calls, and that of entries that are too old on it.
const DAY: u32 = 20_000;
const TOO_OLD: u32 = 0;

/// The bytes that a log has at most. Logs are filled up to that.
pub const SIZES: [usize; 3] = [8 << 10, 64 << 10, 512 << 10];

/// The bytes of the logs of a size that are timed together: enough for the clock to be exact. Those of
/// heard bytes have so many entries that one of the middle size is.
pub const RESULTS_TOGETHER: usize = SIZES[2];
pub const HEARD_TOGETHER: usize = SIZES[1];

/// A call that finds the log as it was when it is repeated is repeated until so many entries were passed,
/// but not more often than that.
const PASSED: usize = 4096;
const MOST_PASSES: usize = 16;

#[derive(Clone, Copy, Debug, PartialEq, Eq)]
pub enum Work {
    /// A heard byte is added.
    AddHeard,
    /// A result is added.
    AddResult,
    /// A sweep finds nothing too old.
    KeepAll,
    /// A sweep finds everything too old.
    DropAll,
    /// A sweep finds the first entry too old, which is a result: all others move by 2,054 bytes.
    DropResult,
    /// A sweep finds the first entry too old, which is a heard byte: all others move by six bytes.
    DropHeard,
    /// A sweep finds every second entry too old, from the first one on.
    DropHalf,
    /// All entries are read.
    Read,
}

impl Work {
    pub const ADDING: [Work; 2] = [Work::AddHeard, Work::AddResult];
    pub const SWEEPING: [Work; 5] = [
        Work::KeepAll,
        Work::DropAll,
        Work::DropResult,
        Work::DropHeard,
        Work::DropHalf,
    ];

    /// Whether it moves entries, so that it finds another log when it is repeated.
    fn moves(self) -> bool {
        [Work::DropResult, Work::DropHeard, Work::DropHalf].contains(&self)
    }

    /// Whether entry k of a log is too old.
    fn drops(self, k: usize) -> bool {
        match self {
            Work::DropAll => true,
            Work::DropHalf => k % 2 == 0,
            _ => false,
        }
    }
}

/// A call, and the log that it finds.
#[derive(Clone, Copy, Debug, PartialEq, Eq)]
pub struct Measure {
    pub work: Work,
    pub of: Of,
    /// The bytes that the log has at most.
    pub bytes: usize,
}

impl Measure {
    /// Those of some calls at all sizes. Adding is also measured on a log of no entries.
    pub fn of(works: &[Work]) -> Vec<Measure> {
        let mut all = Vec::new();
        for &work in works {
            if Work::ADDING.contains(&work) {
                let (of, bytes) = (Of::Results, 0);
                all.push(Measure { work, of, bytes });
            }
            for of in Of::ALL {
                all.extend(SIZES.map(|bytes| Measure { work, of, bytes }));
            }
        }
        all
    }

    pub fn all() -> Vec<Measure> {
        Measure::of(&[&Work::ADDING[..], &Work::SWEEPING, &[Work::Read]].concat())
    }

    /// The entries of the log. One in front, for which another kind is measured, counts with the others.
    fn entries(self) -> Vec<Vec<u8>> {
        let mut entries: Vec<Vec<u8>> = match self.work {
            Work::DropResult => vec![Of::Results.entry(TOO_OLD)],
            Work::DropHeard => vec![Of::HeardBytes.entry(TOO_OLD)],
            _ => Vec::new(),
        };
        let mut used: usize = entries.iter().map(Vec::len).sum();
        loop {
            let too_old = self.work.drops(entries.len());
            let entry = self.of.entry(if too_old { TOO_OLD } else { DAY });
            used += entry.len();
            if used > self.bytes {
                return entries;
            }
            entries.push(entry);
        }
    }
}

/// A log that a measure finds.
pub struct Batch {
    pub measure: Measure,
    /// How many entries it has, and how many bytes they take.
    pub entries: usize,
    pub used: usize,
    /// The used bytes, and room for one entry more.
    lent: Vec<u8>,
    /// How many logs are timed together, and how often each.
    copies: usize,
    passes: usize,
}

impl Batch {
    pub fn new(measure: Measure) -> Batch {
        let entries = measure.entries();
        let mut lent = entries.concat();
        let (entries, used) = (entries.len(), lent.len());
        lent.resize(used + LOG_RESULT_BYTES, 0);
        let together = match measure.of {
            Of::Results => RESULTS_TOGETHER,
            Of::HeardBytes => HEARD_TOGETHER,
        };
        let copies = together.div_ceil(measure.bytes.max(SIZES[0]));
        let passes = match measure.work.moves() {
            true => 1,
            false => PASSED.div_ceil(copies * entries.max(1)).min(MOST_PASSES),
        };
        Batch {
            measure,
            entries,
            used,
            lent,
            copies,
            passes,
        }
    }

    /// Nanoseconds of a contender's call on average. One more log is for warming up and is not timed.
    /// The scratch is kept from call to call, so that its memory is there when the clock starts.
    pub fn time(&self, who: &Contender, scratch: &mut Vec<u8>) -> f64 {
        scratch.resize((1 + self.copies) * self.lent.len(), 0);
        let logs = scratch.chunks_exact_mut(self.lent.len());
        logs.for_each(|log| log.copy_from_slice(&self.lent));
        let (warm_up, timed) = scratch.split_at_mut(self.lent.len());
        let mut number = self.call(who, warm_up);
        let start = Instant::now();
        for _ in 0..self.passes {
            for log in timed.chunks_exact_mut(self.lent.len()) {
                number |= self.call(who, log);
            }
        }
        let nanoseconds = start.elapsed().as_nanos() as f64;
        assert_eq!(number, 0, "{ACCEPTED}");
        nanoseconds / (self.passes * self.copies) as f64
    }

    /// One call, or one for each entry that is read. Its number is answered.
    fn call(&self, who: &Contender, log: &mut [u8]) -> u8 {
        let used = black_box(self.used);
        match self.measure.work {
            Work::AddHeard => (who.add)(LOG_HEARD, DAY, &[0xff], used, log).number,
            Work::AddResult => (who.add)(LOG_RESULT, DAY, &RECORD, used, log).number,
            Work::Read => read(who, used, log),
            _ => (who.sweep)(DAY, used, log).number,
        }
    }
}

fn read(who: &Contender, used: usize, log: &[u8]) -> u8 {
    let mut at = 0;
    while at < used {
        let entry = black_box((who.next)(at, used, log));
        if entry.number != 0 {
            return entry.number;
        }
        at = entry.next;
    }
    0
}

#[cfg(test)]
mod tests {
    use super::*;
    use crate::log::contenders::{all, ENGINE};

    /// Whoever is timed leaves the same bytes.
    #[test]
    fn all_do_the_same_work() {
        for batch in Measure::all().into_iter().map(Batch::new) {
            let worked = |who: &Contender| {
                let mut log = batch.lent.clone();
                assert_eq!(batch.call(who, &mut log), 0);
                log
            };
            let expected = worked(&ENGINE);
            assert!(all().iter().all(|who| worked(who) == expected));
        }
    }

    #[test]
    fn logs_are_filled_and_no_fuller() {
        for batch in Measure::all().into_iter().map(Batch::new) {
            let Measure { of, bytes, .. } = batch.measure;
            assert!(batch.used <= bytes && bytes < batch.used + of.entry(0).len());
            assert_eq!(batch.lent.len(), batch.used + LOG_RESULT_BYTES);
        }
    }

    /// How many bytes a sweep frees and whether it moves any.
    #[test]
    fn each_sweep_drops_what_it_is_said_to() {
        for measure in Measure::of(&Work::SWEEPING) {
            let batch = Batch::new(measure);
            let mut log = batch.lent.clone();
            let reply = (ENGINE.sweep)(DAY, batch.used, &mut log);
            let freed = batch.used - reply.used;
            let due = match measure.work {
                Work::KeepAll => 0,
                Work::DropAll => batch.used,
                Work::DropResult => 2054,
                Work::DropHeard => 6,
                _ => measure.of.entry(0).len() * batch.entries.div_ceil(2),
            };
            assert_eq!((reply.number, freed), (0, due), "{measure:?}");
            let moved = log != batch.lent;
            assert_eq!(moved, measure.work.moves(), "{measure:?}");
        }
    }

    /// What is repeated on the same log finds it as it was.
    #[test]
    fn what_is_repeated_does_the_same_again() {
        for measure in Measure::all() {
            let batch = Batch::new(measure);
            let (mut once, mut twice) = (batch.lent.clone(), batch.lent.clone());
            batch.call(&ENGINE, &mut once);
            for _ in 0..batch.passes.min(2) {
                batch.call(&ENGINE, &mut twice);
            }
            assert!(once == twice, "{measure:?}");
        }
    }
}
