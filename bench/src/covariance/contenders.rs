//! Who is timed.

use super::agree;
use super::implementations::{Adding, Engine, Reference};
use super::measure::{Batch, Measure};
use super::versions;

/// An implementation under the name that the table has.
pub struct Contender {
    pub name: &'static str,
    /// Whether it has a way of its own to write.
    writes: bool,
    implementation: &'static dyn Timed,
}

impl Contender {
    pub const fn new(name: &'static str, implementation: &'static dyn Timed) -> Contender {
        Contender {
            name,
            writes: true,
            implementation,
        }
    }

    /// One that differs from another in adding alone.
    pub const fn adding_alone(name: &'static str, implementation: &'static dyn Timed) -> Contender {
        Contender {
            name,
            writes: false,
            implementation,
        }
    }

    pub fn does(&self, measure: Measure) -> bool {
        match measure {
            Measure::Add => true,
            Measure::Write => self.writes,
        }
    }

    /// The first disagreement with the engine, if there is one.
    pub fn check(&self, seed: u64) -> Result<(), String> {
        let checked = self.implementation.check(seed);
        checked.map_err(|at| format!("{} and the engine differ on {at}", self.name))
    }

    /// Nanoseconds of a call on average.
    pub fn time(&self, batch: &Batch, measure: Measure) -> f64 {
        self.implementation.time(batch, measure)
    }
}

/// What is done with an implementation, whatever its form of the sums is.
pub trait Timed {
    fn check(&self, seed: u64) -> Result<(), String>;
    fn time(&self, batch: &Batch, measure: Measure) -> f64;
}

impl<A: Adding> Timed for A {
    fn check(&self, seed: u64) -> Result<(), String> {
        agree::check(self, seed)
    }

    fn time(&self, batch: &Batch, measure: Measure) -> f64 {
        match measure {
            Measure::Add => batch.time_adding(self),
            Measure::Write => batch.time_writing(self),
        }
    }
}

/// The archive that a host links.
pub const ENGINE: Contender = Contender::new("engine", &Engine);

/// The version that all others are compared with.
pub const BASE: Contender = versions::BASE;

/// All that this build has, the engine first.
pub fn all() -> Vec<Contender> {
    let mut contenders = vec![
        ENGINE,
        #[cfg(earlier)]
        Contender::new("engine, earlier", &crate::earlier::ADDING),
    ];
    contenders.extend(versions::all());
    contenders.push(Contender::new("reference, Rust", &Reference));
    contenders
}
