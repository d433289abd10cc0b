//! QR factorization of the 8 by 8 complex matrix that a radio hub's eight antennas heard, by Givens
//! rotations with CORDIC steps in fixed point. These are safe calls of `libhubqr.a`, which is for
//! x86-64 Linux only; the crate has no dependencies, no state and needs no `std`.
//!
//! A **matrix record** has 257 bytes: the kind byte 1, then 64 elements row by row, each a 16-bit
//! real part and a 16-bit imaginary part, high byte first. They are Q1.15: the whole number a
//! stands for a / 32768. Column k belongs to antenna k.
//!
//! Antenna k is **heard** when the real part of element (k, k) is above [`HEARD_ABOVE`]. Nothing else
//! of the matrix counts, neither the imaginary parts nor the elements off the diagonal, and a
//! negative real part is not above 16. An antenna that was not heard is factored like the others. A
//! matrix in which none was heard is refused with [`Refusal::NoneHeard`], whatever else it holds.
//!
//! The **area** has 512 words of 32 bits, 16 rows of 32 columns, in which the matrix is worked as a
//! real one of 16 by 16. Once all 120 turns (rotations) are done, word (i, j) of R is
//! `area[32 * i + j]` with [`R_ONE`] for one, and word (i, j) of Q is `area[32 * j + 16 + i]` with
//! [`Q_ONE`] for one. R is upper triangular, its first fifteen diagonal words are not negative, and
//! Q times R is 2^43 times the 16-bit input, within 2^44.
//!
//! R without Q has the lengths and angles of the input's columns: for any two columns the sum of the
//! products of their words, which an `i64` holds, is 2^26 times the same sum over the real input,
//! within 2^44. That is the square of 512 steps of the 16-bit input, so little is said of columns
//! that are shorter. Of a column with itself the sum is the square of its length, and word (0, 0) of
//! R is a length itself: 2^13 times that of the input's first column, within 2^22, and the nearer
//! the longer the column is, since the squares of the two differ by at most 2^44. Antenna k has
//! columns k and 8 + k. So the product of antennas i and j, the sum over the 8 rows of the conjugate
//! of antenna i's element times antenna j's, is found in R as well: times 2^26, and within 2^44, its
//! real part is the sum for columns i and j, and its imaginary part that for columns 8 + i and j.
//!
//! A **turn** makes the lower leading word of two rows 0. Where that word is 0 already and the upper
//! leading word is 0 or more, the turn is clear: it is skipped, and leaves both rows as they are.
//!
//! The **job** says how far the work on an area is: its turn number, how many of the 120 turns are
//! done, the skipped ones included, and how many turns were truly made since [`load`]. The latter is
//! what the work really cost: at most 120, for any matrix, and fewer where turns were clear. The
//! caller keeps the [`Job`] beside the area and hands it to the next call; the area does not hold it.
//! Another job than the one last answered for this area is not noticed, unless it is refused with
//! [`Refusal::NoSuchJob`]: another turn number makes the words worthless, and another `made` the
//! count of turns made.
//!
//! A **result record** has 2,049 bytes: the kind byte 2, then R row by row, then Q transposed.
//!
//! A **snapshot** is what the eight antennas heard at one instant, a complex sample of each.
//! [`Covariance`] adds snapshots up and writes the matrix record of the sums.
//!
//! The **weights**, a complex number of two 64-bit floats for each antenna, solve A w = t for the
//! matrix A that was factored and eight **targets** t. [`weights()`] works them out from a result
//! record.
//!
//! Boards that factor by themselves write result records of their own, which are right without being
//! bit for bit those of this engine. [`verify()`] says yes or no to one, whoever wrote it: whether Q
//! times R, and the rows of Q, are within the limits that the results of this engine have for the
//! matrix.
//!
//! The **desk** serves a hub's eight **sectors**, each with its own job, heard byte and area, by
//! **rounds**. When a round begins, each sector has the turns of its own **share**, which no other
//! sector can use; the shares of all are at most 120 together. A sector may hand in its next matrix
//! while its job is unfinished: it **waits** until the result is fetched. Handed in over a finished
//! result that was not fetched, with none waiting, it is loaded at once, and that result is lost.
//! [`Desk`] holds the jobs, the heard bytes, the shares, what each sector has left in the round and the
//! matrices that wait; its methods are the calls; all but `new`, `begin` and `set_shares` are for one
//! sector. All but `new` are made for a **role**: a **viewer** gets the heard bytes and nothing else, a
//! **fitter** the result records too, and the **operator** may make every call. [`Role`] says which
//! call is allowed to whom.
//!
//! The **log** is a lent buffer that holds results for seven days, refusal numbers for thirty and heard
//! bytes for ninety. [`Journal`] adds entries to it, each with its day, sweeps out what has been there
//! long enough, and reads them back. What was swept may still stand in the buffer, behind the used
//! bytes, until it is overwritten.
//!
//! Areas and buffers may be longer than needed: what lies behind is not touched. A refused call
//! changes nothing that it was lent.
//!
//! # In one call
//!
//! ```
//! let mut record = [0; hubqr::MATRIX_RECORD_BYTES];
//! record[0] = hubqr::KIND_MATRIX;
//! record[1..3].copy_from_slice(&16384_i16.to_be_bytes()); // element (0, 0) is one half
//!
//! let mut area = [0; hubqr::AREA_WORDS];
//! let mut result = [0; hubqr::RESULT_RECORD_BYTES];
//! let factored = hubqr::whole(&record, &mut area, &mut result)?;
//! assert_eq!(factored.heard, 0b0000_0001); // antenna 0 and no other
//! assert_eq!(result[0], hubqr::KIND_RESULT);
//!
//! let half = f64::from(area[0]) / f64::from(hubqr::R_ONE);
//! assert!((half - 0.5).abs() < 0.00001);
//! # Ok::<(), hubqr::Refusal>(())
//! ```
//!
//! # In instalments
//!
//! ```
//! # let mut record = [1; hubqr::MATRIX_RECORD_BYTES];
//! let mut area = [0; hubqr::AREA_WORDS];
//! let mut job = hubqr::load(&record, &mut area)?.job;
//! while !job.is_finished() {
//!     job = hubqr::run(job, 7, &mut area)?.job;
//!     // other work goes here
//! }
//! let mut result = [0; hubqr::RESULT_RECORD_BYTES];
//! hubqr::fetch(job, &area, &mut result)?;
//! # Ok::<(), hubqr::Refusal>(())
//! ```
//!
//! # From snapshots
//!
//! ```
//! use hubqr::{Covariance, Sample, ANTENNAS};
//! # let snapshots = [[Sample { re: 3000, im: -4000 }; ANTENNAS]; 2];
//!
//! let mut covariance = Covariance::new();
//! for snapshot in snapshots {
//!     covariance.add(snapshot)?; // eight samples, that of antenna k at place k
//! }
//! let mut record = [0; hubqr::MATRIX_RECORD_BYTES];
//! covariance.write(&mut record)?; // for `whole` or `load`
//! # assert_eq!(record[..5], [1, 1, 125, 0, 0]);
//! # assert_eq!(hubqr::load(&record, &mut [0; hubqr::AREA_WORDS])?.heard, 0xff);
//! # Ok::<(), hubqr::Refusal>(())
//! ```
//!
//! # For several sectors
//!
//! ```
//! use hubqr::Role::{Operator, Viewer};
//! # let records = [[1; hubqr::MATRIX_RECORD_BYTES]; 2];
//!
//! let mut areas = [[0; hubqr::AREA_WORDS]; 2];
//! let mut desk = hubqr::Desk::new();
//! desk.set_shares(Operator, [80, 40, 0, 0, 0, 0, 0, 0])?; // two sectors, and one is busy
//! for (sector, area) in (0..).zip(&mut areas) {
//!     desk.hand_in(Operator, sector, &records[sector as usize], area)?;
//! }
//! while desk.jobs.iter().any(|job| !job.is_finished()) {
//!     desk.begin(Operator)?; // each sector has the turns of its share
//!     for (sector, area) in (0..).zip(&mut areas) {
//!         desk.run(Operator, sector, desk.shares[sector as usize], area)?;
//!         // other work goes here
//!     }
//! }
//! let mut result = [0; hubqr::RESULT_RECORD_BYTES];
//! for (sector, area) in (0..).zip(&mut areas) {
//!     desk.fetch(Operator, sector, area, &mut result)?; // would bring in a matrix that waits
//!     assert_eq!(desk.heard(Viewer, sector)?, 0xff);
//! }
//! # Ok::<(), hubqr::Refusal>(())
//! ```
//!
//! # A log
//!
//! ```
//! use hubqr::{Body, Journal};
//! # let records = [[1; hubqr::MATRIX_RECORD_BYTES], [0; hubqr::MATRIX_RECORD_BYTES]];
//! # let mut area = [0; hubqr::AREA_WORDS];
//! # let mut result = [0; hubqr::RESULT_RECORD_BYTES];
//! # let today = 20_000;
//!
//! let mut buffer = [0; 16_384];
//! let mut journal = Journal::new(&mut buffer);
//! journal.sweep(today); // once a day: takes out what has been there long enough
//! for record in &records {
//!     match hubqr::whole(record, &mut area, &mut result) {
//!         Ok(factored) => {
//!             journal.add(today, Body::Heard(factored.heard))?;
//!             journal.add(today, Body::Result(&result))?;
//!         }
//!         Err(refusal) => journal.add(today, Body::Refusal(refusal.number()))?,
//!     }
//! }
//! for entry in &journal {
//!     println!("day {}: kind {}", entry.day, entry.body.kind());
//! }
//! # assert_eq!(journal.used(), 6 + 2054 + 6);
//! # Ok::<(), hubqr::Refusal>(())
//! ```
#![no_std]
#![warn(missing_docs)]

#[cfg(feature = "archive")]
mod calls;
#[cfg(feature = "archive")]
mod covariance;
#[cfg(feature = "archive")]
mod desk;
#[cfg(feature = "archive")]
mod entry;
#[cfg(feature = "archive")]
pub mod ffi;
#[cfg(feature = "archive")]
mod journal;
mod refusal;
#[cfg(feature = "archive")]
mod role;
#[cfg(feature = "archive")]
mod verify;
#[cfg(feature = "archive")]
mod weights;

#[cfg(feature = "archive")]
pub use calls::{fetch, load, read, run, version, whole};
#[cfg(feature = "archive")]
pub use calls::{Clamps, Factored, Loaded, Progress, Restored};
#[cfg(feature = "archive")]
pub use covariance::Covariance;
#[cfg(feature = "archive")]
pub use desk::HandedIn;
#[cfg(feature = "archive")]
pub use entry::{Body, Entries, Entry};
#[cfg(feature = "archive")]
pub use ffi::{Desk, Job, Sample, Weight};
#[cfg(feature = "archive")]
pub use journal::Journal;
pub use refusal::{Refusal, UnknownNumber};
#[cfg(feature = "archive")]
pub use role::Role;
#[cfg(feature = "archive")]
pub use verify::verify;
#[cfg(feature = "archive")]
pub use weights::weights;

/// The version of this crate as a number, 10000 * major + 100 * minor + patch. The archive answers
/// its own in [`version`].
///
/// ```
/// assert_eq!(hubqr::version(), hubqr::VERSION);
/// ```
pub const VERSION: u32 = 10_000 * decimal(env!("CARGO_PKG_VERSION_MAJOR"))
    + 100 * decimal(env!("CARGO_PKG_VERSION_MINOR"))
    + decimal(env!("CARGO_PKG_VERSION_PATCH"));

const fn decimal(digits: &str) -> u32 {
    match u32::from_str_radix(digits, 10) {
        Ok(number) => number,
        Err(_) => panic!("cargo hands the parts of a version over as decimal digits"),
    }
}

/// Bytes of a matrix record.
pub const MATRIX_RECORD_BYTES: usize = 257;
/// Bytes of a result record.
pub const RESULT_RECORD_BYTES: usize = 2049;
/// Bytes of a refusal record, which the program `qr` writes.
pub const REFUSAL_RECORD_BYTES: usize = 2;
/// Words of the area that the calls work on.
pub const AREA_WORDS: usize = 512;
/// Turns that make R and Q of a loaded matrix.
pub const TURNS: u32 = 120;
/// Antennas of a hub, and so samples of a snapshot.
pub const ANTENNAS: usize = 8;
/// An antenna is heard when its real part on the diagonal is above this: a loose plug leaves a part
/// of one or two.
pub const HEARD_ABOVE: i16 = 16;
/// The most snapshots that are added up.
pub const SNAPSHOTS_MAX: u32 = 4096;
/// Sums that snapshots add up to: two for each of the 64 elements of the matrix.
pub const SUM_WORDS: usize = 128;

/// Sectors of a hub.
pub const SECTORS: usize = 8;
/// What the shares of all sectors make together at most, and so the turns of a round.
pub const ROUND_TURNS: u16 = 120;
/// The share that each sector of a new desk has.
pub const FIRST_SHARE: u16 = 15;

/// First byte of a matrix record.
pub const KIND_MATRIX: u8 = 1;
/// First byte of a result record.
pub const KIND_RESULT: u8 = 2;
/// First byte of a refusal record.
pub const KIND_REFUSAL: u8 = 3;

/// The kind of a log's entry that holds a result record.
pub const LOG_RESULT: u32 = 5;
/// The kind of a log's entry that holds a refusal number.
pub const LOG_REFUSAL: u32 = 6;
/// The kind of a log's entry that holds a heard byte.
pub const LOG_HEARD: u32 = 7;

/// Bytes of a log's entry before its body: those of its kind and its day.
pub const LOG_HEAD_BYTES: usize = 5;
/// Bytes of a log's entry that holds a result record.
pub const LOG_RESULT_BYTES: usize = LOG_HEAD_BYTES + RESULT_RECORD_BYTES;
/// Bytes of a log's entry that holds a refusal number.
pub const LOG_REFUSAL_BYTES: usize = LOG_HEAD_BYTES + 1;
/// Bytes of a log's entry that holds a heard byte.
pub const LOG_HEARD_BYTES: usize = LOG_HEAD_BYTES + 1;

/// Days that a result record stays in a log.
pub const LOG_RESULT_DAYS: u32 = 7;
/// Days that a refusal number stays in a log.
pub const LOG_REFUSAL_DAYS: u32 = 30;
/// Days that a heard byte stays in a log.
pub const LOG_HEARD_DAYS: u32 = 90;

/// What stands for one in the words of R, so that one step of the 16-bit input is 2^13.
pub const R_ONE: i32 = 1 << 28;
/// What stands for one in the words of Q.
pub const Q_ONE: i32 = 1 << 30;
