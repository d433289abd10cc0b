//! The call for weights, made on the engine and on the reference.

use std::collections::BTreeMap;

use hubqr::Sample;
use reference::matrix::ANTENNAS;
use reference::random::Random;
use reference::weights::{self, WeightsReply};

use super::snapshots::Snapshots;
use super::twin::Twin;
use super::{engine, refusals, Case};

/// Eight targets, each a real and an imaginary part.
pub type Targets = [(i16, i16); ANTENNAS];

pub const NO_TARGET: Targets = [(0, 0); ANTENNAS];

/// Targets of all kinds: anything, small, at the ends of the range, one of them alone, or none.
pub fn any_targets(random: &mut Random) -> Targets {
    if random.one_in(8) {
        return NO_TARGET;
    }
    let snapshot = Snapshots::Mixed.draw(random);
    snapshot.map(|sample| (sample.re, sample.im))
}

/// The number, and the bits of all weights: -0.0 is not +0.0 here.
pub fn bits(reply: &WeightsReply) -> (u8, [(u64, u64); ANTENNAS]) {
    let weights = reply.weights;
    (
        reply.number,
        weights.map(|(re, im)| (re.to_bits(), im.to_bits())),
    )
}

/// What the calls of a test came to.
#[derive(Debug)]
pub struct Seen {
    pub accepted: u64,
    /// How often each number was answered.
    pub refusals: BTreeMap<u8, u64>,
    /// The largest magnitude of a part, and the smallest of one other than 0.
    pub largest: f64,
    pub smallest: f64,
}

impl Seen {
    pub const NONE: Seen = Seen {
        accepted: 0,
        refusals: BTreeMap::new(),
        largest: 0.0,
        smallest: f64::INFINITY,
    };

    pub fn print(&self, test: &str) {
        let refusals = refusals::listed(&self.refusals);
        println!("\n{test}: {} solved{refusals}", self.accepted);
        if self.largest > 0.0 {
            let [smallest, largest] = [self.smallest, self.largest].map(f64::log2);
            println!("parts other than 0 from 2^{smallest:.2} to 2^{largest:.2}");
        }
    }

    /// Asks both sides for weights. The replies agree in every bit, no weight is a NaN, infinite or
    /// subnormal, those of a refused call are +0.0, and nothing in or around the record is written.
    pub fn weights(&mut self, case: &Case, record: &[u8], targets: &Targets) -> WeightsReply {
        let mut filler = Random::for_case(!case.seed, case.number);
        let mut lent = Twin::new(record.len(), || filler.byte());
        lent.fill(record);
        let engine = engine::weights(lent.engine(), targets);
        let reference = weights::weights(lent.reference(), targets);
        let face = through_the_face(record, targets);
        if let Some(complaint) = complaint([engine, reference, face], &lent) {
            panic!("{complaint}\n{case}, targets {targets:?}");
        }
        self.count(&engine);
        engine
    }

    fn count(&mut self, reply: &WeightsReply) {
        if reply.number == 0 {
            self.accepted += 1;
        } else {
            *self.refusals.entry(reply.number).or_default() += 1;
        }
        for size in parts(reply).map(f64::abs).filter(|size| *size > 0.0) {
            self.largest = self.largest.max(size);
            self.smallest = self.smallest.min(size);
        }
    }
}

/// What is wrong with the replies of the engine, the reference and the host crate, if anything is.
fn complaint(replies: [WeightsReply; 3], lent: &Twin<u8>) -> Option<String> {
    let engine = replies[0];
    if replies.iter().any(|reply| bits(reply) != bits(&engine)) {
        return Some(format!("engine, reference and host crate: {replies:?}"));
    }
    if !parts(&engine).all(|part| part == 0.0 || part.is_normal()) {
        return Some(format!("NaN, infinite or subnormal: {engine:?}"));
    }
    if engine.number != 0 && bits(&engine).1 != [(0, 0); ANTENNAS] {
        return Some(format!("a refusal with weights: {engine:?}"));
    }
    lent.difference()
}

/// The call by the host crate's safe function, and a refusal with weights of +0.0.
fn through_the_face(record: &[u8], targets: &Targets) -> WeightsReply {
    match hubqr::weights(record, targets.map(|(re, im)| Sample { re, im })) {
        Ok(weights) => WeightsReply {
            number: 0,
            weights: weights.map(|weight| (weight.re, weight.im)),
        },
        Err(refusal) => WeightsReply {
            number: refusal.number(),
            ..WeightsReply::default()
        },
    }
}

fn parts(reply: &WeightsReply) -> impl Iterator<Item = f64> + '_ {
    let weights = reply.weights.iter();
    weights.flat_map(|&(re, im)| [re, im])
}
