//! Before anything is timed: a contender answers what the engine answers, the number and every bit
//! of the weights, where a record is accepted and where it is refused.

use hubqr::ffi::{Snapshot, WeightsReply};
use reference::random::Random;

use super::contenders::{Contender, ENGINE};
use crate::agree::matrices;
use crate::inputs;
use crate::results::{arbitrary, damaged, worked};

/// Records of arbitrary words that are accepted.
const ARBITRARY: usize = 200;

/// Where a contender first disagrees with the engine, if it does.
pub fn check(who: &Contender, seed: u64) -> Result<(), String> {
    let mut random = Random::new(seed);
    let mut records: Vec<Vec<u8>> = matrices(&mut random).iter().map(worked).collect();
    records.extend((0..ARBITRARY).map(|_| arbitrary(&mut random)));
    records.extend(damaged(&arbitrary(&mut random)));
    for record in records {
        for targets in [
            inputs::snapshot(&mut random),
            inputs::snapshot_of(|| random.choose(&[i16::MIN, i16::MAX])),
            inputs::snapshot_of(|| 0),
        ] {
            if answer(who, &record, targets) != answer(&ENGINE, &record, targets) {
                return Err(format!("{record:?} and {targets:?}"));
            }
        }
    }
    Ok(())
}

/// The number and the weights' bits: 0.0 and -0.0 are equal as numbers, and a NaN is not.
fn answer(who: &Contender, record: &[u8], targets: Snapshot) -> (u8, [(u64, u64); 8]) {
    let WeightsReply { number, weights } = (who.weights)(record, targets);
    (number, weights.map(|w| (w.re.to_bits(), w.im.to_bits())))
}

#[cfg(test)]
mod tests {
    use super::*;
    use hubqr::ffi::Weight;

    fn agrees(weights: fn(&[u8], Snapshot) -> WeightsReply) -> bool {
        let who = Contender {
            name: "tested",
            weights,
        };
        check(&who, 1).is_ok()
    }

    fn engine(record: &[u8], targets: Snapshot) -> WeightsReply {
        (ENGINE.weights)(record, targets)
    }

    #[test]
    fn wrong_numbers_are_noticed() {
        assert!(agrees(engine));
        assert!(!agrees(|record, targets| WeightsReply {
            number: 0,
            ..engine(record, targets)
        }));
        assert!(!agrees(|record, targets| {
            let mut reply = engine(record, targets);
            if reply.number == 11 {
                reply.number = 8;
            }
            reply
        }));
    }

    #[test]
    fn wrong_bits_are_noticed() {
        assert!(!agrees(|record, targets| {
            let mut reply = engine(record, targets);
            let Weight { im, .. } = &mut reply.weights[7];
            *im += 0.0; // -0.0 becomes 0.0, and all else stays
            reply
        }));
        assert!(!agrees(|record, targets| {
            let mut reply = engine(record, targets);
            if reply.number == 0 {
                let Weight { re, .. } = &mut reply.weights[0];
                *re = f64::from_bits(re.to_bits() ^ 1);
            }
            reply
        }));
        assert!(!agrees(|record, targets| {
            let mut reply = engine(record, targets);
            if reply.number != 0 {
                reply.weights[3].re = 1.0;
            }
            reply
        }));
    }
}
