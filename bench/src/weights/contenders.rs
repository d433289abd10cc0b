//! Who is timed: implementations that have to agree in the number and in every bit of the weights.

use hubqr::ffi::{self, Snapshot, Weight, WeightsReply};
use reference::weights::weights as reference_weights;

use super::{agree, versions};

/// An implementation under the name that the table has. It takes any record.
#[derive(Clone, Copy)]
pub struct Contender {
    pub name: &'static str,
    pub weights: fn(&[u8], Snapshot) -> WeightsReply,
}

impl Contender {
    /// The first disagreement with the engine, if there is one.
    pub fn check(&self, seed: u64) -> Result<(), String> {
        let checked = agree::check(self, seed);
        checked.map_err(|at| format!("{} and the engine differ on {at}", self.name))
    }
}

/// The archive that a host links, called as the versions in C are.
pub const ENGINE: Contender = Contender {
    name: "engine",
    // SAFETY: the call reads the record alone.
    weights: |record, targets| unsafe {
        ffi::hubqr_weights(record.as_ptr(), record.len(), targets)
    },
};

/// The version that all others are compared with.
pub const BASE: Contender = versions::gcc_weights::CONTENDER;

/// The second implementation, whose sums have 128 bits.
const REFERENCE: Contender = Contender {
    name: "reference, Rust",
    weights: |record, targets| {
        let reply = reference_weights(record, &targets.samples.map(|s| (s.re, s.im)));
        WeightsReply {
            number: reply.number,
            weights: reply.weights.map(|(re, im)| Weight { re, im }),
        }
    },
};

/// All that this build has, the engine first.
pub fn all() -> Vec<Contender> {
    vec![
        ENGINE,
        #[cfg(earlier)]
        crate::earlier::WEIGHTS,
        BASE,
        #[cfg(clang)]
        versions::clang_weights::CONTENDER,
        REFERENCE,
    ]
}
