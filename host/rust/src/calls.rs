//! The five calls with slices in and a `Result` out.
//!
//! Each `unsafe` block rests on the same facts: a slice's pointer and length describe memory that may
//! be read, or written where it is `&mut`; Rust's borrows do not overlap; and the archive touches
//! nothing else and keeps no pointer.
use crate::ffi::{self, Job};
use crate::refusal::Refusal;
use crate::TURNS;

impl Job {
    /// Whether all 120 turns are done, so that R and Q are finished.
    ///
    /// ```
    /// use hubqr::Job;
    ///
    /// assert!(!Job { turn: 119, made: 119 }.is_finished());
    /// assert!(Job { turn: 120, made: 0 }.is_finished());
    /// ```
    pub const fn is_finished(self) -> bool {
        self.turn == TURNS
    }
}

/// What an accepted [`load`] answers.
#[derive(Clone, Copy, Debug, PartialEq, Eq)]
#[non_exhaustive]
pub struct Loaded {
    /// The job to hand to the next call, with both its numbers 0.
    pub job: Job,
    /// Bit k is set when antenna k was heard: when the real part of element (k, k) of the complex
    /// matrix is above [`HEARD_ABOVE`](crate::HEARD_ABOVE). It is never 0.
    pub heard: u8,
}

/// How many words were cut to the 32-bit range, by side. Both are 0 for an area that was loaded and
/// worked with the jobs that were answered.
#[derive(Clone, Copy, Debug, PartialEq, Eq)]
pub struct Clamps {
    /// Those of columns 0 to 15, which hold R.
    pub r: u32,
    /// Those of columns 16 to 31, which hold Q.
    pub q: u32,
}

/// What an accepted [`run`] answers.
#[derive(Clone, Copy, Debug, PartialEq, Eq)]
#[non_exhaustive]
pub struct Progress {
    /// The job to hand to the next call.
    pub job: Job,
    /// The turns that this call went on by, the skipped ones included.
    pub count: u32,
    /// The clamps counted in this call.
    pub clamps: Clamps,
}

/// What an accepted [`read`] answers.
#[derive(Clone, Copy, Debug, PartialEq, Eq)]
#[non_exhaustive]
pub struct Restored {
    /// The job to hand to the next call: turn number 120 and 0 made, since a result record does not
    /// tell what it cost.
    pub job: Job,
}

/// What an accepted [`whole`] answers.
#[derive(Clone, Copy, Debug, PartialEq, Eq)]
#[non_exhaustive]
pub struct Factored {
    /// Bit k is set when antenna k was heard: when the real part of element (k, k) of the complex
    /// matrix is above [`HEARD_ABOVE`](crate::HEARD_ABOVE). It is never 0.
    pub heard: u8,
    /// The clamps counted: 0 on both sides.
    pub clamps: Clamps,
}

/// Fills the area's 512 words from a matrix record.
///
/// Refuses, in this order, with [`Refusal::WrongKind`], [`Refusal::WrongLength`],
/// [`Refusal::AreaTooShort`], [`Refusal::NoneHeard`].
///
/// ```
/// let mut record = [0; hubqr::MATRIX_RECORD_BYTES];
/// record[0] = hubqr::KIND_MATRIX;
/// let mut area = [0; hubqr::AREA_WORDS];
/// record[2] = 16; // the real part of element (0, 0)
/// assert_eq!(hubqr::load(&record, &mut area), Err(hubqr::Refusal::NoneHeard));
///
/// record[2] = 17;
/// let loaded = hubqr::load(&record, &mut area)?;
/// assert_eq!(loaded.job, hubqr::Job { turn: 0, made: 0 });
/// assert_eq!(loaded.heard, 1);
/// assert_eq!(area[0], 17 * 8192);
/// # Ok::<(), hubqr::Refusal>(())
/// ```
pub fn load(record: &[u8], area: &mut [i32]) -> Result<Loaded, Refusal> {
    // SAFETY: as said at the top of this file.
    let reply =
        unsafe { ffi::hubqr_load(record.as_ptr(), record.len(), area.as_mut_ptr(), area.len()) };
    accepted(reply.number)?;
    Ok(Loaded {
        job: reply.job,
        heard: reply.heard,
    })
}

/// Goes on by the smaller of `allowance` and the turns that remain, from turn number `job.turn` on.
/// It makes those that are not clear and skips the others: the turn number grows by the count, which
/// includes the skipped turns, and `made` by the turns made. An allowance of 0 and a turn number of
/// 120 are no errors.
///
/// Refuses, in this order, with [`Refusal::AreaTooShort`], [`Refusal::NoSuchJob`].
///
/// ```
/// # let record = [1; hubqr::MATRIX_RECORD_BYTES];
/// # let mut area = [0; hubqr::AREA_WORDS];
/// let job = hubqr::load(&record, &mut area)?.job;
/// let progress = hubqr::run(job, 100, &mut area)?;
/// assert_eq!((progress.job.turn, progress.count), (100, 100));
/// let progress = hubqr::run(progress.job, 100, &mut area)?;
/// assert_eq!((progress.job.turn, progress.count), (120, 20));
/// assert_eq!(progress.clamps, hubqr::Clamps { r: 0, q: 0 });
/// # Ok::<(), hubqr::Refusal>(())
/// ```
///
/// A diagonal of positive numbers has nothing to clear, so that its 120 turns cost nothing:
///
/// ```
/// let mut record = [0; hubqr::MATRIX_RECORD_BYTES];
/// record[0] = hubqr::KIND_MATRIX;
/// for k in 0..hubqr::ANTENNAS {
///     record[1 + 36 * k] = 0x40; // element (k, k) is 16384, one half
/// }
/// let mut area = [0; hubqr::AREA_WORDS];
/// let job = hubqr::load(&record, &mut area)?.job;
/// let job = hubqr::run(job, 120, &mut area)?.job;
/// assert_eq!(job, hubqr::Job { turn: 120, made: 0 });
/// # Ok::<(), hubqr::Refusal>(())
/// ```
pub fn run(job: Job, allowance: u16, area: &mut [i32]) -> Result<Progress, Refusal> {
    // SAFETY: as said at the top of this file.
    let reply = unsafe { ffi::hubqr_run(job, allowance, area.as_mut_ptr(), area.len()) };
    accepted(reply.number)?;
    Ok(Progress {
        job: reply.job,
        count: reply.count,
        clamps: Clamps {
            r: reply.clamps_r,
            q: reply.clamps_q,
        },
    })
}

/// Writes the result record into the first 2,049 bytes of the buffer.
///
/// Refuses, in this order, with [`Refusal::AreaTooShort`], [`Refusal::NoSuchJob`],
/// [`Refusal::Unfinished`], [`Refusal::BufferTooShort`], [`Refusal::NotTriangular`]. The last never
/// comes for an area that was loaded and worked with the jobs that were answered.
///
/// ```
/// # let record = [1; hubqr::MATRIX_RECORD_BYTES];
/// # let mut area = [0; hubqr::AREA_WORDS];
/// # let mut result = [0; hubqr::RESULT_RECORD_BYTES];
/// let job = hubqr::load(&record, &mut area)?.job;
/// let early = hubqr::fetch(job, &area, &mut result);
/// assert_eq!(early, Err(hubqr::Refusal::Unfinished));
///
/// let job = hubqr::run(job, 120, &mut area)?.job;
/// hubqr::fetch(job, &area, &mut result)?;
/// assert_eq!(result[0], hubqr::KIND_RESULT);
/// # Ok::<(), hubqr::Refusal>(())
/// ```
pub fn fetch(job: Job, area: &[i32], buffer: &mut [u8]) -> Result<(), Refusal> {
    // SAFETY: as said at the top of this file.
    let number = unsafe {
        ffi::hubqr_fetch(
            job,
            area.as_ptr(),
            area.len(),
            buffer.as_mut_ptr(),
            buffer.len(),
        )
    };
    accepted(number)
}

/// Fills the area's 512 words from a result record. A [`fetch`] from that area writes the same
/// record again.
///
/// Refuses, in this order, with [`Refusal::WrongKind`], [`Refusal::WrongLength`],
/// [`Refusal::AreaTooShort`], [`Refusal::NotTriangular`].
///
/// ```
/// # let matrix = [1; hubqr::MATRIX_RECORD_BYTES];
/// # let mut area = [0; hubqr::AREA_WORDS];
/// # let mut result = [0; hubqr::RESULT_RECORD_BYTES];
/// # hubqr::whole(&matrix, &mut area, &mut result)?;
/// let mut other = [0; hubqr::AREA_WORDS];
/// let restored = hubqr::read(&result, &mut other)?;
/// assert_eq!(restored.job, hubqr::Job { turn: 120, made: 0 });
/// assert_eq!(other, area);
/// # Ok::<(), hubqr::Refusal>(())
/// ```
pub fn read(record: &[u8], area: &mut [i32]) -> Result<Restored, Refusal> {
    // SAFETY: as said at the top of this file.
    let reply =
        unsafe { ffi::hubqr_read(record.as_ptr(), record.len(), area.as_mut_ptr(), area.len()) };
    accepted(reply.number)?;
    Ok(Restored { job: reply.job })
}

/// Does [`load`], all turns and [`fetch`] in one call. R and Q are left in the area as well.
///
/// Refuses, in this order, with [`Refusal::WrongKind`], [`Refusal::WrongLength`],
/// [`Refusal::AreaTooShort`], [`Refusal::BufferTooShort`], [`Refusal::NoneHeard`].
///
/// ```
/// let mut area = [0; hubqr::AREA_WORDS];
/// let mut result = [0; hubqr::RESULT_RECORD_BYTES];
/// let record = [1; hubqr::MATRIX_RECORD_BYTES]; // kind byte 1, each part 257
/// let factored = hubqr::whole(&record, &mut area, &mut result)?;
/// assert_eq!(factored.heard, 0xff);
/// assert_eq!(factored.clamps, hubqr::Clamps { r: 0, q: 0 });
/// # Ok::<(), hubqr::Refusal>(())
/// ```
pub fn whole(record: &[u8], area: &mut [i32], buffer: &mut [u8]) -> Result<Factored, Refusal> {
    // SAFETY: as said at the top of this file.
    let reply = unsafe {
        ffi::hubqr_whole(
            record.as_ptr(),
            record.len(),
            area.as_mut_ptr(),
            area.len(),
            buffer.as_mut_ptr(),
            buffer.len(),
        )
    };
    accepted(reply.number)?;
    Ok(Factored {
        heard: reply.heard,
        clamps: Clamps {
            r: reply.clamps_r,
            q: reply.clamps_q,
        },
    })
}

/// The version of the archive that this program was linked with. It has to be [`crate::VERSION`].
pub fn version() -> u32 {
    // SAFETY: the call takes nothing.
    unsafe { ffi::hubqr_version() }
}

/// The outcome that a reply's number stands for. The contracts give 0 and the numbers of refusals
/// only, so another one means that it is not the archive these declarations were written for:
/// nothing it left in the lent memory could be trusted.
pub(crate) fn accepted(number: u8) -> Result<(), Refusal> {
    if number == 0 {
        return Ok(());
    }
    match Refusal::try_from(number) {
        Ok(refusal) => Err(refusal),
        Err(unknown) => panic!("libhubqr.a does not fit this crate: {unknown}"),
    }
}

#[cfg(test)]
mod tests {
    use super::*;

    #[test]
    fn answered_numbers_become_outcomes() {
        assert_eq!(accepted(0), Ok(()));
        for &refusal in Refusal::ALL {
            assert_eq!(accepted(refusal.number()), Err(refusal));
        }
    }

    #[test]
    #[should_panic(expected = "libhubqr.a does not fit this crate: 255 is no refusal number")]
    fn an_unknown_number_panics() {
        let _ = accepted(255);
    }
}
