//! Ways of adding up, which have to agree in every number, sum and byte.

use hubqr::ffi::{AddReply, Snapshot, Sums};
use hubqr::{Covariance, Refusal};
use reference::covariance::{self, Sums as ReferenceSums};
use reference::matrix::Complex;

/// One way of adding up, with the sums in a form of its own. Every call answers its number.
pub trait Adding {
    type Sums;
    fn taken(&self, sums: &Sums) -> Self::Sums;
    fn given(&self, sums: &Self::Sums) -> Sums;
    fn add(&self, snapshot: &Snapshot, sums: &mut Self::Sums) -> u8;
    fn write(&self, sums: &Self::Sums, buffer: &mut [u8]) -> u8;
}

/// The archive through `host/rust`.
pub struct Engine;

impl Adding for Engine {
    type Sums = Covariance;

    fn taken(&self, sums: &Sums) -> Covariance {
        Covariance::from_parts(sums.count, sums.words)
    }

    fn given(&self, sums: &Covariance) -> Sums {
        Sums {
            count: sums.count(),
            words: *sums.words(),
        }
    }

    fn add(&self, snapshot: &Snapshot, sums: &mut Covariance) -> u8 {
        number(sums.add(snapshot.samples))
    }

    fn write(&self, sums: &Covariance, buffer: &mut [u8]) -> u8 {
        number(sums.write(buffer))
    }
}

fn number(reply: Result<(), Refusal>) -> u8 {
    reply.map_or_else(Refusal::number, |()| 0)
}

/// The second implementation, whose sums have 128 bits.
pub struct Reference;

impl Adding for Reference {
    type Sums = ReferenceSums;

    fn taken(&self, sums: &Sums) -> ReferenceSums {
        ReferenceSums::from_words(sums.count, &sums.words)
    }

    fn given(&self, sums: &ReferenceSums) -> Sums {
        Sums {
            count: sums.count(),
            words: sums.to_words(),
        }
    }

    fn add(&self, snapshot: &Snapshot, sums: &mut ReferenceSums) -> u8 {
        let samples = snapshot.samples.map(|s| Complex::new(s.re, s.im));
        let reply = covariance::add(&samples, sums);
        *sums = reply.sums;
        reply.number
    }

    fn write(&self, sums: &ReferenceSums, buffer: &mut [u8]) -> u8 {
        covariance::write(sums, buffer)
    }
}

/// Calls of the archive's shape, which take and answer the sums by value, and stay within the buffer.
pub struct ByValue {
    pub add: unsafe extern "C" fn(snapshot: Snapshot, sums: Sums) -> AddReply,
    pub write: unsafe extern "C" fn(sums: Sums, buffer: *mut u8, buffer_len: usize) -> u8,
}

impl Adding for ByValue {
    type Sums = Sums;

    fn taken(&self, sums: &Sums) -> Sums {
        *sums
    }

    fn given(&self, sums: &Sums) -> Sums {
        *sums
    }

    fn add(&self, snapshot: &Snapshot, sums: &mut Sums) -> u8 {
        // SAFETY: the call takes and answers values alone.
        let reply = unsafe { (self.add)(*snapshot, *sums) };
        *sums = reply.sums;
        reply.number
    }

    fn write(&self, sums: &Sums, buffer: &mut [u8]) -> u8 {
        // SAFETY: the call writes to the buffer alone.
        unsafe { (self.write)(*sums, buffer.as_mut_ptr(), buffer.len()) }
    }
}

/// Calls that are lent the sums, and stay within them and the buffer.
pub struct InPlace {
    pub add: unsafe extern "C" fn(sums: &mut Sums, snapshot: Snapshot) -> u8,
    pub write: unsafe extern "C" fn(sums: &Sums, buffer: *mut u8, buffer_len: usize) -> u8,
}

impl Adding for InPlace {
    type Sums = Sums;

    fn taken(&self, sums: &Sums) -> Sums {
        *sums
    }

    fn given(&self, sums: &Sums) -> Sums {
        *sums
    }

    fn add(&self, snapshot: &Snapshot, sums: &mut Sums) -> u8 {
        // SAFETY: the call writes to the sums alone.
        unsafe { (self.add)(sums, *snapshot) }
    }

    fn write(&self, sums: &Sums, buffer: &mut [u8]) -> u8 {
        // SAFETY: the call reads the sums and writes to the buffer alone.
        unsafe { (self.write)(sums, buffer.as_mut_ptr(), buffer.len()) }
    }
}
