//! Who is timed: implementations in whole numbers, which have to agree in every word and byte.

use hubqr::Job;
use reference::job::Job as ReferenceJob;

use crate::versions;

pub type Record = [u8; hubqr::MATRIX_RECORD_BYTES];
pub type Area = [i32; hubqr::AREA_WORDS];
pub type Buffer = [u8; hubqr::RESULT_RECORD_BYTES];

/// Clamps by side, as every contender answers them and as the versions in C hand them over.
#[repr(C)]
#[derive(Clone, Copy, Default, PartialEq, Eq)]
pub struct Clamps {
    pub r: u32,
    pub q: u32,
}

impl From<hubqr::Clamps> for Clamps {
    fn from(hubqr::Clamps { r, q }: hubqr::Clamps) -> Clamps {
        Clamps { r, q }
    }
}

impl From<reference::clamps::Clamps> for Clamps {
    fn from(reference::clamps::Clamps { r, q }: reference::clamps::Clamps) -> Clamps {
        Clamps { r, q }
    }
}

/// The calls of one implementation, on input that they accept.
#[derive(Clone, Copy)]
pub struct Contender {
    pub name: &'static str,
    /// Answers the heard byte.
    pub load: fn(&Record, &mut Area) -> u8,
    /// Answers the job and the clamps.
    pub run: fn(Job, u16, &mut Area) -> (Job, Clamps),
    /// Takes an area of which all turns are done.
    pub fetch: fn(&Area, &mut Buffer),
    /// Answers the heard byte and the clamps.
    pub whole: fn(&Record, &mut Area, &mut Buffer) -> (u8, Clamps),
}

/// The version that all others are compared with.
pub const BASE: Contender = versions::gcc_plain::CONTENDER;

/// The job of an area that Load has filled.
pub const LOADED: Job = Job { turn: 0, made: 0 };

/// A job of an area of which all turns are done: Fetch takes any of them.
pub const FINISHED: Job = Job {
    turn: hubqr::TURNS,
    made: 0,
};

/// Why no call is refused while it is timed.
pub const ACCEPTED: &str = "the benchmark hands over accepted input only";

/// The archive that a host links.
pub const ENGINE: Contender = Contender {
    name: "engine",
    load: |record, area| hubqr::load(record, area).expect(ACCEPTED).heard,
    run: |job, allowance, area| {
        let progress = hubqr::run(job, allowance, area).expect(ACCEPTED);
        (progress.job, progress.clamps.into())
    },
    fetch: |area, buffer| hubqr::fetch(FINISHED, area, buffer).expect(ACCEPTED),
    whole: |record, area, buffer| {
        let factored = hubqr::whole(record, area, buffer).expect(ACCEPTED);
        (factored.heard, factored.clamps.into())
    },
};

/// The second implementation. Its Run copies the area in and out.
const REFERENCE: Contender = Contender {
    name: "reference, Rust",
    load: |record, area| reference::calls::load(record, area).heard,
    run: |Job { turn, made }, allowance, area| {
        let reply = reference::calls::run(ReferenceJob { turn, made }, allowance, area);
        let ReferenceJob { turn, made } = reply.job;
        (Job { turn, made }, reply.clamps.into())
    },
    fetch: |area, buffer| {
        let Job { turn, made } = FINISHED;
        reference::calls::fetch(ReferenceJob { turn, made }, area, buffer);
    },
    whole: |record, area, buffer| {
        let reply = reference::calls::whole(record, area, buffer);
        (reply.heard, reply.clamps.into())
    },
};

/// All that this build has, the engine first.
pub fn all() -> Vec<Contender> {
    let mut contenders = vec![
        ENGINE,
        #[cfg(earlier)]
        crate::earlier::CONTENDER,
    ];
    contenders.extend(versions::all());
    contenders.push(REFERENCE);
    contenders
}

/// What could have been compared but is not there, in words.
pub fn missing() -> Vec<&'static str> {
    let mut missing = vec![
        #[cfg(not(clang))]
        "clang is not installed: its versions in C are skipped",
        #[cfg(not(lapack))]
        "LAPACK is not installed: it is skipped",
        #[cfg(not(eigen))]
        "Eigen is not installed: it is skipped",
    ];
    if !versions::has_v3() {
        missing.push("the processor is no x86-64-v3: the versions in C for it are skipped");
    }
    missing
}
