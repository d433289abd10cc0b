//! What the differential tests share: one call made on the engine and on the reference, and
//! everything either could have changed compared afterwards.

// Every test file compiles this module for itself and uses a part of it.
#![allow(dead_code)]

pub mod desk;
mod engine;
pub mod heard;
pub mod log;
pub mod noticed;
mod refusals;
pub mod snapshots;
pub mod sums;
pub mod triangle;
mod twin;
pub mod verify;
pub mod weights;
pub mod words;
mod worked;

use std::fmt::{self, Debug, Display};

use reference::accuracy::Errors;
use reference::area::{WorkArea, AREA_WORDS};
use reference::calls;
use reference::clamps::Clamps;
use reference::job::Job;
use reference::random::Random;
use reference::records::RESULT_RECORD;
use reference::replies::{FetchReply, LoadReply, ReadReply, RunReply, WholeReply};
use twin::Twin;
use worked::Loaded;

/// Words and bytes that can be lent beyond what the calls use.
pub const SPARE: usize = 8;

/// Names a case, so that a failed one can be made again.
#[derive(Debug, Clone)]
pub struct Case {
    pub test: &'static str,
    pub seed: u64,
    pub number: u64,
    /// The record the case is about, if it is about one.
    pub record: Option<Vec<u8>>,
}

impl Case {
    pub fn new(test: &'static str, seed: u64, number: u64, record: &[u8]) -> Self {
        Case {
            record: Some(record.to_vec()),
            ..Case::of_words(test, seed, number)
        }
    }

    /// A case that is about words and no record.
    pub fn of_words(test: &'static str, seed: u64, number: u64) -> Self {
        Case {
            test,
            seed,
            number,
            record: None,
        }
    }

    /// The generator that belongs to this case.
    pub fn random(&self) -> Random {
        Random::for_case(self.seed, self.number)
    }
}

impl Display for Case {
    fn fmt(&self, f: &mut fmt::Formatter) -> fmt::Result {
        write!(f, "{}, seed {}, case {}", self.test, self.seed, self.number)?;
        if let Some(record) = &self.record {
            write!(f, ", record of {} bytes: ", record.len())?;
            record.iter().try_for_each(|b| write!(f, "{b:02X}"))?;
        }
        Ok(())
    }
}

/// The engine and the reference side by side, each with its own area and buffer. Every call is
/// made on both; a difference in the reply or in any word or byte of memory fails the test.
pub struct Both {
    case: Case,
    /// The words that the test put into the areas, if it did.
    filled: Option<[i32; AREA_WORDS]>,
    area: Twin<i32>,
    buffer: Twin<u8>,
    /// The matrix that the areas were loaded with, while each accepted Run since was in step.
    loaded: Option<Loaded>,
    /// The errors of the matrix in the areas, once it is worked to the end.
    worked: Option<Errors>,
}

impl Both {
    /// Lends 512 words and 2,049 bytes, all filled at random.
    pub fn new(case: Case) -> Self {
        let mut random = Random::for_case(!case.seed, case.number);
        let area = Twin::new(AREA_WORDS + SPARE, || random.word());
        let mut random = Random::for_case(!case.seed, !case.number);
        let buffer = Twin::new(RESULT_RECORD + SPARE, || random.byte());
        let mut both = Both {
            case,
            filled: None,
            area,
            buffer,
            loaded: None,
            worked: None,
        };
        both.lend(AREA_WORDS, RESULT_RECORD);
        both
    }

    /// Lends that many words and bytes from now on.
    pub fn lend(&mut self, words: usize, bytes: usize) {
        self.area.lend(words);
        self.buffer.lend(bytes);
    }

    /// How many words and bytes are lent.
    pub fn lent(&self) -> (usize, usize) {
        (self.area.lent(), self.buffer.lent())
    }

    /// Puts words into both areas.
    pub fn fill_area(&mut self, words: &[i32; AREA_WORDS]) {
        self.area.fill(words);
        self.filled = Some(*words);
        (self.loaded, self.worked) = (None, None);
    }

    /// The engine's area as rows and columns.
    pub fn area(&self) -> WorkArea {
        let words = self.area.contents().first_chunk();
        WorkArea::from_words(words.expect("the area always has 512 words"))
    }

    /// The first 2,049 bytes of the engine's buffer.
    pub fn fetched(&self) -> Vec<u8> {
        self.buffer.contents()[..RESULT_RECORD].to_vec()
    }

    pub fn load(&mut self, record: &[u8]) -> LoadReply {
        let mut lent = record.to_vec();
        let engine = engine::load(&mut lent, self.area.engine());
        let reference = calls::load(record, self.area.reference());
        self.compare("Load", engine, reference);
        self.require(lent == record, "Load changed the record");
        if reference.number == 0 {
            (self.loaded, self.worked) = (Some(Loaded::new(record)), None);
        }
        reference
    }

    /// Whatever the area holds, an accepted Run goes on by its count, makes no more turns than
    /// that, and answers a job that exists; a refused one gives back its job, and all else is 0.
    /// The last Run of a matrix that was worked in step leaves an accurate R and Q.
    pub fn run(&mut self, job: Job, allowance: u16) -> RunReply {
        let engine = engine::run(job, allowance, self.area.engine());
        let reference = calls::run(job, allowance, self.area.reference());
        self.compare(&format!("{job:?}, Run of {allowance}"), engine, reference);
        let (next, count) = (engine.job, engine.count);
        if engine.number == 0 {
            let grown = job.made <= next.made && next.made <= job.made + count;
            self.require(
                grown,
                "more turns made than the Run had, or fewer than before",
            );
            let within = next.turn == job.turn + count && next.turn <= 120;
            self.require(within && next.made <= next.turn, "no such job was answered");
            self.loaded = self.loaded.and_then(|loaded| loaded.after(job, next));
            if count > 0 {
                self.worked = None;
                self.hold_if_worked();
            }
        } else {
            let nothing = next == job && count == 0 && engine.clamps == Clamps::NONE;
            self.require(nothing, "a refused Run answered more than its job");
        }
        reference
    }

    pub fn fetch(&mut self, job: Job) -> FetchReply {
        let engine = engine::fetch(job, self.area.engine(), self.buffer.engine());
        let reference = calls::fetch(job, self.area.reference(), self.buffer.reference());
        self.compare(&format!("{job:?}, Fetch"), engine, reference);
        reference
    }

    pub fn read(&mut self, record: &[u8]) -> ReadReply {
        let mut lent = record.to_vec();
        let engine = engine::read(&mut lent, self.area.engine());
        let reference = calls::read(record, self.area.reference());
        self.compare("Read", engine, reference);
        self.require(lent == record, "Read changed the record");
        if reference.number == 0 {
            (self.loaded, self.worked) = (None, None);
        }
        reference
    }

    pub fn whole(&mut self, record: &[u8]) -> WholeReply {
        let mut lent = record.to_vec();
        let engine = engine::whole(&mut lent, self.area.engine(), self.buffer.engine());
        let reference = calls::whole(record, self.area.reference(), self.buffer.reference());
        self.compare("Whole", engine, reference);
        self.require(lent == record, "Whole changed the record");
        if reference.number == 0 {
            self.loaded = None;
            self.hold(Loaded::new(record));
        }
        reference
    }

    /// Fails the test, naming the case, unless the condition holds.
    pub fn require(&self, condition: bool, otherwise: &str) {
        assert!(condition, "{otherwise}\n{}", self.named());
    }

    fn compare<T: PartialEq + Debug>(&self, call: &str, engine: T, reference: T) {
        if engine != reference {
            self.fail(call, &format!("engine {engine:?}, reference {reference:?}"));
        }
        if let Some(difference) = self.area.difference() {
            self.fail(call, &format!("area: {difference}"));
        }
        if let Some(difference) = self.buffer.difference() {
            self.fail(call, &format!("buffer: {difference}"));
        }
    }

    fn fail(&self, call: &str, what: &str) -> ! {
        let (words, bytes) = self.lent();
        panic!(
            "{call}, {words} words and {bytes} bytes lent: {what}\n{}",
            self.named()
        )
    }

    /// The case, and in hexadecimal the words that were put into the areas.
    fn named(&self) -> String {
        let case = self.case.to_string();
        match &self.filled {
            Some(words) => format!("{case}, area filled with {}", twin::hexadecimal(words)),
            None => case,
        }
    }
}
