//! The calls of the covariance, made on the engine and on the reference.

use std::collections::BTreeMap;

use hubqr::ffi;
use reference::covariance::{self, Snapshot, Sums, SUM_WORDS};
use reference::matrix::{Complex, ANTENNAS};
use reference::random::Random;
use reference::records::MATRIX_RECORD;

use super::twin::{hexadecimal, Twin};
use super::{engine, refusals, Case};

/// The longest buffer that can be lent.
const LONGEST: usize = 300;

/// What the calls of a test came to.
#[derive(Debug, Default)]
pub struct Seen {
    pub snapshots: u64,
    pub records: u64,
    /// How often each number was answered.
    pub refusals: BTreeMap<u8, u64>,
}

impl Seen {
    pub fn print(&self, test: &str) {
        let Seen {
            snapshots, records, ..
        } = self;
        let refusals = refusals::listed(&self.refusals);
        println!("\n{test}: {snapshots} snapshots added, {records} records written{refusals}");
    }
}

/// The same sums on both sides. Every call is made on both; a difference in the reply, in a sum or
/// in any byte of memory fails the test.
pub struct BothSums<'a> {
    case: Case,
    engine: ffi::Sums,
    reference: Sums,
    /// What the last call was handed.
    handed: (Snapshot, Sums),
    /// Makes what stands in a buffer before a call.
    filler: Random,
    record: [u8; MATRIX_RECORD],
    seen: &'a mut Seen,
}

impl<'a> BothSums<'a> {
    /// Starts with the sums of no snapshot.
    pub fn none(case: Case, seen: &'a mut Seen) -> Self {
        let mut both = BothSums::of_words(case, 0, &[0; SUM_WORDS], seen);
        (both.engine, both.reference) = (engine::sums_none(), Sums::NONE);
        both.compare("no snapshot", 0, 0);
        both
    }

    /// Starts with sums that are handed in.
    pub fn of_words(case: Case, count: u32, words: &[i64; SUM_WORDS], seen: &'a mut Seen) -> Self {
        let (words, sums) = (*words, Sums::from_words(count, words));
        BothSums {
            filler: Random::for_case(!case.seed, case.number),
            case,
            engine: ffi::Sums { count, words },
            reference: sums.clone(),
            handed: ([Complex::ZERO; ANTENNAS], sums),
            record: [0; MATRIX_RECORD],
            seen,
        }
    }

    /// Adds a snapshot and answers the number.
    pub fn add(&mut self, snapshot: &Snapshot) -> u8 {
        self.handed = (*snapshot, self.reference.clone());
        let (number, sums) = engine::add_snapshot(snapshot, self.engine);
        let reply = covariance::add(snapshot, &self.reference);
        (self.engine, self.reference) = (sums, reply.sums);
        self.compare("adding", number, reply.number);
        if number == 0 {
            self.seen.snapshots += 1;
        } else {
            self.count_refusal(number, self.reference == self.handed.1);
        }
        number
    }

    /// Writes to a buffer of that many bytes and answers the number.
    pub fn write(&mut self, bytes: usize) -> u8 {
        let mut buffer = Twin::new(LONGEST, || self.filler.byte());
        buffer.lend(bytes);
        let before = buffer.contents().to_vec();
        let number = engine::write_matrix(self.engine, buffer.engine());
        let expected = covariance::write(&self.reference, buffer.reference());
        self.compare(&format!("writing to {bytes} bytes"), number, expected);
        let difference = buffer.difference();
        self.require(difference.is_none(), &format!("buffer: {difference:?}"));
        let after = buffer.contents();
        if number == 0 {
            self.record.copy_from_slice(&after[..MATRIX_RECORD]);
            let same = before[MATRIX_RECORD..] == after[MATRIX_RECORD..];
            self.require(same, "writing changed more than 257 bytes");
            self.seen.records += 1;
        } else {
            self.count_refusal(number, before == after);
        }
        number
    }

    /// The sums, which are the same on both sides.
    pub fn sums(&self) -> &Sums {
        &self.reference
    }

    /// The record that was written last, by the engine.
    pub fn record(&self) -> &[u8; MATRIX_RECORD] {
        &self.record
    }

    /// Fails the test, naming the case, unless the condition holds.
    pub fn require(&self, condition: bool, otherwise: &str) {
        assert!(condition, "{otherwise}\n{}", self.named());
    }

    fn count_refusal(&mut self, number: u8, unchanged: bool) {
        self.require(unchanged, "a refused call changed something");
        *self.seen.refusals.entry(number).or_default() += 1;
    }

    fn compare(&self, call: &str, engine: u8, reference: u8) {
        if engine != reference {
            let numbers = format!("{call}: engine {engine}, reference {reference}");
            self.require(false, &numbers);
        }
        let same = self.engine.count == self.reference.count()
            && self.engine.words == self.reference.to_words();
        self.require(same, call);
    }

    /// The case, what the last call was handed, and the sums on both sides.
    fn named(&self) -> String {
        let (snapshot, handed) = &self.handed;
        let engine = Sums::from_words(self.engine.count, &self.engine.words);
        let [handed, engine, reference] = [handed, &engine, &self.reference].map(shown);
        format!(
            "{}, {snapshot:?}\nhanded {handed}\nengine {engine}\nreference {reference}",
            self.case
        )
    }
}

/// The count in decimal and the sums in hexadecimal.
fn shown(sums: &Sums) -> String {
    format!(
        "count {}, sums {}",
        sums.count(),
        hexadecimal(&sums.to_words())
    )
}
