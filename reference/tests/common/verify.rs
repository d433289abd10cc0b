//! The call that says yes or no to a result, made on the engine and on the reference.

use std::collections::BTreeMap;

use reference::random::Random;
use reference::verify::{self, VerifyReply};

use super::twin::{hexadecimal, Twin};
use super::{engine, refusals, Case};

/// What the calls of a test came to.
#[derive(Debug, Default)]
pub struct Seen {
    pub yes: u64,
    pub no: u64,
    /// How often each number was answered.
    pub refusals: BTreeMap<u8, u64>,
}

impl Seen {
    pub fn print(&self, test: &str) {
        let refusals = refusals::listed(&self.refusals);
        println!("\n{test}: {} yes, {} no{refusals}", self.yes, self.no);
    }

    /// Fails the test unless these are the numbers that were answered.
    pub fn assert_numbers(&self, numbers: &[u8]) {
        refusals::assert_numbers(&self.refusals, numbers);
    }

    /// Asks both sides. The replies agree, a refusal is no yes, and nothing in or around the records is
    /// written. The case is about the matrix.
    pub fn verify(&mut self, case: &Case, matrix: &[u8], result: &[u8]) -> VerifyReply {
        let mut filler = Random::for_case(!case.seed, case.number);
        let mut lent = [matrix, result].map(|record| {
            let mut lent = Twin::new(record.len(), || filler.byte());
            lent.fill(record);
            lent
        });
        let [handed, beside] = &mut lent;
        let replies = [
            engine::verify(handed.engine(), beside.engine()),
            verify::verify(handed.reference(), beside.reference()),
            through_the_face(matrix, result),
        ];
        if let Some(complaint) = complaint(replies, &lent) {
            panic!("{complaint}\n{case}, result {}", hexadecimal(result));
        }
        self.count(replies[0]);
        replies[0]
    }

    fn count(&mut self, VerifyReply { number, yes }: VerifyReply) {
        match (number, yes) {
            (0, true) => self.yes += 1,
            (0, false) => self.no += 1,
            _ => *self.refusals.entry(number).or_default() += 1,
        }
    }
}

/// What is wrong with the replies of the engine, the reference and the host crate, if anything is.
fn complaint(replies: [VerifyReply; 3], lent: &[Twin<u8>; 2]) -> Option<String> {
    let engine = replies[0];
    if replies.iter().any(|reply| *reply != engine) {
        return Some(format!("engine, reference and host crate: {replies:?}"));
    }
    if engine.number != 0 && engine.yes {
        return Some(format!("a refusal that says yes: {engine:?}"));
    }
    lent.iter().find_map(Twin::difference)
}

/// The call by the host crate's safe function, and a refusal without a yes.
fn through_the_face(matrix: &[u8], result: &[u8]) -> VerifyReply {
    match hubqr::verify(matrix, result) {
        Ok(yes) => VerifyReply { number: 0, yes },
        Err(refusal) => VerifyReply {
            number: refusal.number(),
            yes: false,
        },
    }
}
