//! Who is timed: implementations that have to agree in the number and in yes or no.

use hubqr::ffi::{self, Verdict};
use reference::verify::verify as reference_verify;

use super::{agree, versions};

/// An implementation under the name that the table has. It takes any matrix record and any result
/// record.
#[derive(Clone, Copy)]
pub struct Contender {
    pub name: &'static str,
    pub verify: fn(&[u8], &[u8]) -> Verdict,
}

impl Contender {
    /// The first disagreement with the engine, if there is one.
    pub fn check(&self, seed: u64) -> Result<(), String> {
        let checked = agree::check(self, seed);
        checked.map_err(|at| format!("{} and the engine differ on {at}", self.name))
    }
}

/// The archive that a host links, called as the versions in C are.
pub const ENGINE: Contender = Contender {
    name: "engine",
    // SAFETY: the call reads the two records alone.
    verify: |matrix, result| unsafe {
        ffi::hubqr_verify(matrix.as_ptr(), matrix.len(), result.as_ptr(), result.len())
    },
};

/// The version that all others are compared with.
pub const BASE: Contender = versions::gcc_verify::CONTENDER;

/// The second implementation, which works both products out as a whole before it looks at them.
const REFERENCE: Contender = Contender {
    name: "reference, Rust",
    verify: |matrix, result| {
        let reply = reference_verify(matrix, result);
        Verdict {
            number: reply.number,
            yes: reply.yes.into(),
        }
    },
};

/// All that this build has, the engine first.
pub fn all() -> Vec<Contender> {
    vec![
        ENGINE,
        #[cfg(earlier)]
        crate::earlier::VERIFY,
        BASE,
        #[cfg(clang)]
        versions::clang_verify::CONTENDER,
        REFERENCE,
    ]
}
