//! What `libhubqr.a` exports, declared as the headers in `include/` declare it, which have the rules
//! of each call. `tools/check-face.sh` compares these lines with the headers, with the archive's
//! symbols and with the sources that the archive is made of.
//!
//! A pointer may be null only where its length is 0, and the record or the body, the area and the
//! buffer of a call may not overlap. The two records of [`hubqr_verify`] may, since both are only read.
//! In every reply `number` is 0 for an accepted call, and the refusal's number otherwise. A `role` is
//! the number of a [`Role`](crate::Role): any other number is refused with 15, by every call that takes
//! one.

/// How far the work on an area is. The caller keeps it beside the area and hands it to the next call.
#[repr(C)]
#[derive(Clone, Copy, Debug, PartialEq, Eq)]
pub struct Job {
    /// The turn number: how many of the 120 turns are done, the skipped ones included.
    pub turn: u32,
    /// How many turns were truly made since Load, which is what the work really cost. It is at most
    /// 120, for any matrix.
    pub made: u32,
}

/// What Load answers.
#[repr(C)]
#[derive(Clone, Copy, Debug, PartialEq, Eq)]
pub struct LoadReply {
    /// 0, or the refusal's number.
    pub number: u8,
    /// The heard byte.
    pub heard: u8,
    /// The job to hand to the next call: (0, 0).
    pub job: Job,
}

/// What Run answers.
#[repr(C)]
#[derive(Clone, Copy, Debug, PartialEq, Eq)]
pub struct RunReply {
    /// 0, or the refusal's number.
    pub number: u8,
    /// The job to hand to the next call; of a refused call, the one that it was handed.
    pub job: Job,
    /// The turns that this call went on by, the skipped ones included.
    pub count: u32,
    /// The clamps counted in this call in columns 0 to 15, which hold R.
    pub clamps_r: u32,
    /// The clamps counted in this call in columns 16 to 31, which hold Q.
    pub clamps_q: u32,
}

/// What Read answers.
#[repr(C)]
#[derive(Clone, Copy, Debug, PartialEq, Eq)]
pub struct ReadReply {
    /// 0, or the refusal's number.
    pub number: u8,
    /// The job to hand to the next call: (120, 0); of a refused call, (0, 0).
    pub job: Job,
}

/// What Whole answers.
#[repr(C)]
#[derive(Clone, Copy, Debug, PartialEq, Eq)]
pub struct WholeReply {
    /// 0, or the refusal's number.
    pub number: u8,
    /// The heard byte.
    pub heard: u8,
    /// The clamps counted in columns 0 to 15: 0.
    pub clamps_r: u32,
    /// The clamps counted in columns 16 to 31: 0.
    pub clamps_q: u32,
}

/// What one antenna heard at one instant: a complex number.
#[repr(C)]
#[derive(Clone, Copy, Debug, Default, PartialEq, Eq)]
pub struct Sample {
    /// The real part.
    pub re: i16,
    /// The imaginary part.
    pub im: i16,
}

/// What all antennas heard at one instant.
#[repr(C)]
#[derive(Clone, Copy, Debug, PartialEq, Eq)]
pub struct Snapshot {
    /// That of antenna k at place k.
    pub samples: [Sample; 8],
}

/// What has been added up.
#[repr(C)]
#[derive(Clone, Copy, Debug, PartialEq, Eq)]
pub struct Sums {
    /// How many snapshots.
    pub count: u32,
    /// Part q of element (i, j) at place 2 * (8 * i + j) + q.
    pub words: [i64; 128],
}

/// What adding a snapshot answers.
#[repr(C)]
#[derive(Clone, Copy, Debug, PartialEq, Eq)]
pub struct AddReply {
    /// 0, or the refusal's number.
    pub number: u8,
    /// The sums with the snapshot added; of a refused call, those that it was handed.
    pub sums: Sums,
}

/// What one antenna is weighted with: a complex number, in which 1.0 is one.
#[repr(C)]
#[derive(Clone, Copy, Debug, Default, PartialEq)]
pub struct Weight {
    /// The real part.
    pub re: f64,
    /// The imaginary part.
    pub im: f64,
}

/// What working out the weights answers.
#[repr(C)]
#[derive(Clone, Copy, Debug, PartialEq)]
pub struct WeightsReply {
    /// 0, or the refusal's number.
    pub number: u8,
    /// That of antenna k at place k; of a refused call, +0.0 in all parts.
    pub weights: [Weight; 8],
}

/// What verifying a result record against a matrix record answers.
#[repr(C)]
#[derive(Clone, Copy, Debug, PartialEq, Eq)]
pub struct Verdict {
    /// 0, or the refusal's number.
    pub number: u8,
    /// 1 for yes, 0 for no; of a refused call, which is neither, 0.
    pub yes: u8,
}

/// What adding an entry to a log and sweeping one answer.
#[repr(C)]
#[derive(Clone, Copy, Debug, PartialEq, Eq)]
pub struct LogReply {
    /// 0, or the refusal's number.
    pub number: u8,
    /// The used count to hand to the next call; of a refused call 0, and the caller keeps the one that it
    /// handed over.
    pub used: usize,
}

/// What reading a log answers: the entry at a place. At the end of the used bytes, where none stands, and
/// of a refused call, `kind`, `day`, `body` and `body_len` are 0.
#[repr(C)]
#[derive(Clone, Copy, Debug, PartialEq, Eq)]
pub struct LogEntry {
    /// 0, or the refusal's number.
    pub number: u8,
    /// The kind: 5, 6 or 7.
    pub kind: u32,
    /// The day, counted from 1 January 1970.
    pub day: u32,
    /// The body's place in the buffer.
    pub body: usize,
    /// The bytes of the body.
    pub body_len: usize,
    /// The place of the next entry; at the end of the used bytes, the used count; of a refused call, 0.
    pub next: usize,
}

/// How far the work for the eight sectors of a hub is, their shares, what each has left in the round,
/// and the matrices that wait: 2,168 plain bytes that the caller keeps from call to call. Its methods
/// are the calls. It is the host's alone, since it holds what a viewer or a fitter is not answered.
///
/// Each call needs the desk that the last one left. An older desk, such as a clone that was kept, is
/// not noticed: its counts grant turns a second time, its jobs no longer fit their areas, and a matrix
/// that was loaded waits again.
///
/// A desk that a caller has made up is taken as it is by every call: shares and what is left may be up
/// to 65,535 each. A job that [`run`](crate::run) would refuse with
/// [`Refusal::NoSuchJob`](crate::Refusal::NoSuchJob) is refused so here. One with a turn number above
/// 120 counts as finished for a hand-in, so that its sector is loaded again, unless a matrix waits.
/// Behind one such as (5, 6) every hand-in waits, until the caller mends the desk. A matrix that waits
/// is not tested again when it is brought in: with `waits` above 0, whatever 257 bytes `records` has
/// are loaded. The first of them, which is the kind byte of a record, counts for nothing, and the heard
/// byte may be 0. What is said of a sector that was loaded, or never loaded, of what waits and of all
/// shares together is for desks that came from [`new`](Desk::new) and are changed by the calls alone.
#[repr(C)]
#[derive(Clone, Debug, PartialEq, Eq)]
pub struct Desk {
    /// The job of sector k at place k. It is (120, 0) until the sector is loaded for the first time.
    pub jobs: [Job; 8],
    /// The heard byte of sector k at place k: that of the matrix that its job was loaded from. It is 0
    /// until the sector is loaded for the first time.
    pub heard: [u8; 8],
    /// The share of sector k at place k: the turns that it has left when a round begins.
    pub shares: [u16; 8],
    /// The turns that sector k has left in the round, at place k.
    pub left: [u16; 8],
    /// Whether a matrix waits for sector k, at place k: 0 if none does, and 1 if one does. Every value
    /// above 1 means the same as 1, and no call answers one that it was not handed.
    pub waits: [u8; 8],
    /// The matrix record that waits for sector k, from place 257 * k on. Where none waits, the bytes
    /// mean nothing: those of a matrix that was brought in stay.
    pub records: [u8; 2056],
}

/// The shares of all sectors, as the call that sets them takes them.
#[repr(C)]
#[derive(Clone, Copy, Debug, PartialEq, Eq)]
pub struct Shares {
    /// The share of sector k at place k.
    pub shares: [u16; 8],
}

/// What beginning a round, setting shares and a sector's Fetch answer.
#[repr(C)]
#[derive(Clone, Debug, PartialEq, Eq)]
pub struct DeskReply {
    /// The desk to hand to the next call; of a refused call, the one that it was handed.
    pub desk: Desk,
    /// 0, or the refusal's number.
    pub number: u8,
}

/// What handing in a sector's matrix answers.
#[repr(C)]
#[derive(Clone, Debug, PartialEq, Eq)]
pub struct DeskLoadReply {
    /// The desk to hand to the next call; of a refused call, the one that it was handed.
    pub desk: Desk,
    /// 0, or the refusal's number.
    pub number: u8,
    /// The sector's heard byte: that of the record if it was loaded, and the one that the sector has if
    /// the record waits; of a refused call, 0.
    pub heard: u8,
    /// The sector's job: (0, 0) if the record was loaded, and the one that the sector has if the record
    /// waits; of a refused call, (0, 0), and the desk has the sector's job.
    pub job: Job,
}

/// What a sector's Run answers.
#[repr(C)]
#[derive(Clone, Debug, PartialEq, Eq)]
pub struct DeskRunReply {
    /// The desk to hand to the next call; of a refused call, the one that it was handed.
    pub desk: Desk,
    /// 0, or the refusal's number.
    pub number: u8,
    /// The sector's job; of a refused call, (0, 0), unlike that of [`RunReply`].
    pub job: Job,
    /// The turns granted, the skipped ones included.
    pub count: u32,
    /// The clamps counted in this call in columns 0 to 15, which hold R.
    pub clamps_r: u32,
    /// The clamps counted in this call in columns 16 to 31, which hold Q.
    pub clamps_q: u32,
}

/// What asking for a sector's heard byte answers.
#[repr(C)]
#[derive(Clone, Debug, PartialEq, Eq)]
pub struct DeskHeardReply {
    /// The desk that was handed over.
    pub desk: Desk,
    /// 0, or the refusal's number.
    pub number: u8,
    /// The sector's heard byte.
    pub heard: u8,
}

extern "C" {
    /// The archive's version: 10000 * major + 100 * minor + patch.
    pub fn hubqr_version() -> u32;

    /// Fills the area from a matrix record.
    pub fn hubqr_load(
        record: *const u8,
        record_len: usize,
        area: *mut i32,
        area_len: usize,
    ) -> LoadReply;

    /// Goes on by at most `allowance` of the turns that remain.
    pub fn hubqr_run(job: Job, allowance: u16, area: *mut i32, area_len: usize) -> RunReply;

    /// Writes the result record of a finished area, and answers the number alone.
    pub fn hubqr_fetch(
        job: Job,
        area: *const i32,
        area_len: usize,
        buffer: *mut u8,
        buffer_len: usize,
    ) -> u8;

    /// Fills the area from a result record.
    pub fn hubqr_read(
        record: *const u8,
        record_len: usize,
        area: *mut i32,
        area_len: usize,
    ) -> ReadReply;

    /// Load, all turns and Fetch in one call.
    pub fn hubqr_whole(
        record: *const u8,
        record_len: usize,
        area: *mut i32,
        area_len: usize,
        buffer: *mut u8,
        buffer_len: usize,
    ) -> WholeReply;

    /// No snapshot added: the count and all sums are 0.
    pub fn hubqr_sums_none() -> Sums;

    /// Adds a snapshot to the sums.
    pub fn hubqr_add_snapshot(snapshot: Snapshot, sums: Sums) -> AddReply;

    /// Writes the matrix record of the sums, and answers the number alone.
    pub fn hubqr_write_matrix(sums: Sums, buffer: *mut u8, buffer_len: usize) -> u8;

    /// Works out the weights that a result record gives for eight targets.
    pub fn hubqr_weights(record: *const u8, record_len: usize, targets: Snapshot) -> WeightsReply;

    /// Says whether a result record holds the factors of a matrix record's matrix.
    pub fn hubqr_verify(
        matrix: *const u8,
        matrix_len: usize,
        result: *const u8,
        result_len: usize,
    ) -> Verdict;

    /// Adds an entry behind the used bytes of a log.
    pub fn hubqr_log_add(
        kind: u32,
        day: u32,
        body: *const u8,
        body_len: usize,
        used: usize,
        buffer: *mut u8,
        buffer_len: usize,
    ) -> LogReply;

    /// Takes the entries that are too old on a day out of a log, and closes the gaps.
    pub fn hubqr_log_sweep(day: u32, used: usize, buffer: *mut u8, buffer_len: usize) -> LogReply;

    /// Reads the entry that stands at a place of a log's used bytes.
    pub fn hubqr_log_next(at: usize, used: usize, buffer: *const u8, buffer_len: usize)
        -> LogEntry;

    /// A new desk: no sector is loaded, and each has a share of 15 turns, all of them left.
    pub fn hubqr_desk_new() -> Desk;

    /// Begins a round: each sector's count is refilled from its share.
    pub fn hubqr_desk_begin(role: u32, desk: Desk) -> DeskReply;

    /// Sets the shares of all sectors, which count from the next round on.
    pub fn hubqr_desk_set_shares(role: u32, desk: Desk, shares: Shares) -> DeskReply;

    /// Hands in a sector's matrix: it is loaded, or waits in the desk if the sector's job is unfinished or
    /// one waits already.
    pub fn hubqr_desk_hand_in(
        role: u32,
        desk: Desk,
        sector: u32,
        record: *const u8,
        record_len: usize,
        area: *mut i32,
        area_len: usize,
    ) -> DeskLoadReply;

    /// Goes on by the smallest of `request`, what the sector has left in the round and what its job has
    /// left.
    pub fn hubqr_desk_run(
        role: u32,
        desk: Desk,
        sector: u32,
        request: u16,
        area: *mut i32,
        area_len: usize,
    ) -> DeskRunReply;

    /// Writes the result record of a sector's finished area, and then, for the operator, loads the matrix
    /// that waits, if one does.
    pub fn hubqr_desk_fetch(
        role: u32,
        desk: Desk,
        sector: u32,
        area: *mut i32,
        area_len: usize,
        buffer: *mut u8,
        buffer_len: usize,
    ) -> DeskReply;

    /// Answers a sector's heard byte.
    pub fn hubqr_desk_heard(role: u32, desk: Desk, sector: u32) -> DeskHeardReply;
}
