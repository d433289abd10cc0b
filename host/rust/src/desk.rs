//! The desk: calls for one of eight sectors, each made for one of three roles.
//!
//! Each `unsafe` block rests on what `calls.rs` says of slices; a clone of the desk is handed over, and
//! the next desk is answered by value.
use crate::calls::{accepted, Clamps, Progress};
use crate::ffi::{self, Desk, Job, Shares};
use crate::refusal::Refusal;
use crate::role::Role;
use crate::SECTORS;

/// What an accepted [`Desk::hand_in`] answers. Whether the matrix waits is in [`Desk::waits`].
#[derive(Clone, Copy, Debug, PartialEq, Eq)]
#[non_exhaustive]
pub struct HandedIn {
    /// The sector's job: (0, 0) if the matrix was loaded; if it waits, the job as it stands, which is
    /// that of the matrix before.
    pub job: Job,
    /// The sector's heard byte: if the matrix was loaded, its own, which is never 0; if it waits, the
    /// heard byte as it stands.
    pub heard: u8,
}

/// Each call but [`new`](Desk::new) is made for a [`Role`], and is refused with
/// [`Refusal::NotAllowed`] before anything else is tested if it is not allowed to that role.
///
/// Each call but `new`, [`begin`](Desk::begin) and [`set_shares`](Desk::set_shares) is for one sector,
/// 0 to 7, and refuses any other with [`Refusal::NoSuchSector`] before it tests what else it is handed.
/// A refused call changes neither the desk nor what it was lent.
///
/// A sector may hand in its next matrix while the job of the one before is unfinished: it **waits** in
/// the desk, one for each sector, and a later one takes its place. [`run`](Desk::run) and
/// [`fetch`](Desk::fetch) go on with the matrix before. A matrix is **loaded** when the sector's area is
/// filled from it and its job becomes (0, 0): by the hand-in itself if the job is finished and none
/// waits, and otherwise by the operator's next Fetch that succeeds, which **brings it in** once it has
/// written the result of the matrix before. A fitter's Fetch writes the same record and brings nothing
/// in.
///
/// Whatever desk and areas there are, and whatever calls are made in between for the other roles:
///
/// - what a viewer's calls answer depends on those calls and on the heard bytes that the desk has at
///   each of them, and on nothing else, whatever the results are;
/// - what a fitter's calls answer and write depends on those calls, on the heard bytes, on whether the
///   sector's job is refused with [`Refusal::NoSuchJob`] or [`Refusal::Unfinished`], and on the area
///   and the buffer that are lent; not on how many turns were made, beyond the first of these refusals,
///   on shares, on what is left in the round or on what waits;
/// - a call for any role but the operator leaves the desk and every area as they were.
///
/// Nothing is said of how long a call takes, nor of who hands a role over: the library believes its
/// caller. The desk itself holds the jobs, the shares and the matrices that wait, in fields that
/// whoever has it can read. It is the host's alone: hand on what a call answers, and never the desk or
/// an area.
///
/// For a desk that came from `new` and is changed by these calls alone, whose sectors each have an
/// area that is lent to all calls for that sector and that nothing else writes to, not even a call for
/// another sector:
///
/// - a sector's area, job and heard byte are as if it had run alone with the turns granted to it;
/// - what is granted to a sector depends on its own shares, job and requests and on when rounds begin,
///   all by the operator's calls, whatever the other seven do;
/// - a sector that was loaded, and is not loaded again, by a hand-in or by a Fetch that brings one in,
///   that has an unchanged share s above 0, and for which the operator requests s or more, with an area
///   of at least 512 words, in every round that the operator begins after the load, finishes within 120
///   divided by s such rounds, rounded up;
/// - what a sector was granted in a round and what it has left make the share that it had when the
///   round began, and the turns granted in a round to all are never more than
///   [`ROUND_TURNS`](crate::ROUND_TURNS).
///
/// For a desk that came from `new` and is changed by these calls alone, whatever areas they were lent:
///
/// - a sector's heard byte changes only with a load;
/// - what waits for a sector passed the tests of [`load`](crate::load), and is the record of the
///   sector's last accepted hand-in; where none waits, the sector's job was loaded from that one.
///
/// If besides each of a sector's accepted calls since it was loaded was lent the area that the load
/// filled, and nothing else writes to it:
///
/// - each result fetched from the sector, by the operator or by a fitter, has the bounds of the crate's
///   first page, against the matrix that its job was loaded from;
/// - a Fetch that is repeated, for either of them, writes the same bytes until the next load.
impl Desk {
    /// A desk at the start of a round. Each sector has a share of 15 turns, all of them left. None is
    /// loaded: each has the job (120, 0) and heard byte 0, and no matrix waits.
    ///
    /// ```
    /// use hubqr::{FIRST_SHARE, SECTORS};
    ///
    /// let desk = hubqr::Desk::new();
    /// assert_eq!(desk.shares, [FIRST_SHARE; SECTORS]);
    /// assert_eq!(desk.left, [FIRST_SHARE; SECTORS]);
    /// assert_eq!(desk.jobs, [hubqr::Job { turn: 120, made: 0 }; SECTORS]);
    /// assert_eq!(desk.heard, [0; SECTORS]);
    /// assert_eq!(desk.waits, [0; SECTORS]);
    /// ```
    pub fn new() -> Desk {
        // SAFETY: the call takes nothing.
        unsafe { ffi::hubqr_desk_new() }
    }

    /// Begins a round: each sector has the turns of its share left, and nothing else of the desk
    /// changes. Turns that it had left in the last round are not added.
    ///
    /// Refuses with [`Refusal::NotAllowed`] all but the operator, and nothing else.
    pub fn begin(&mut self, role: Role) -> Result<(), Refusal> {
        // SAFETY: the call takes and answers values alone.
        let reply = unsafe { ffi::hubqr_desk_begin(role.number(), self.clone()) };
        accepted(reply.number)?;
        *self = reply.desk;
        Ok(())
    }

    /// Sets the shares of all sectors, that of sector k at place k. They count from the next round on:
    /// what each sector has left in this one stays as it is. A share may be 0, and all together may be
    /// less than 120.
    ///
    /// Refuses all but the operator with [`Refusal::NotAllowed`], and then with
    /// [`Refusal::SharesExceedRound`] if they are above 120 in total. The total is exact, for eight
    /// shares of 65,535 too, and nothing else is tested.
    ///
    /// ```
    /// use hubqr::Role::Operator;
    ///
    /// let mut desk = hubqr::Desk::new();
    /// desk.set_shares(Operator, [60, 40, 20, 0, 0, 0, 0, 0])?;
    /// assert_eq!(desk.left[..3], [15, 15, 15]);
    /// desk.begin(Operator)?;
    /// assert_eq!(desk.left[..3], [60, 40, 20]);
    ///
    /// let refused = desk.set_shares(Operator, [60, 40, 20, 1, 0, 0, 0, 0]);
    /// assert_eq!(refused, Err(hubqr::Refusal::SharesExceedRound));
    /// assert_eq!(desk.shares[..4], [60, 40, 20, 0]);
    /// # Ok::<(), hubqr::Refusal>(())
    /// ```
    pub fn set_shares(&mut self, role: Role, shares: [u16; SECTORS]) -> Result<(), Refusal> {
        let shares = Shares { shares };
        // SAFETY: the call takes and answers values alone.
        let reply = unsafe { ffi::hubqr_desk_set_shares(role.number(), self.clone(), shares) };
        accepted(reply.number)?;
        *self = reply.desk;
        Ok(())
    }

    /// Hands in a matrix record for a sector. It is tested as [`load`](crate::load) tests it, and then:
    ///
    /// - If the sector's job is finished and no matrix waits, the area is filled from it, as `load`
    ///   does. The job becomes (0, 0), and the heard byte that of the record. A result in the area that
    ///   was not fetched is lost.
    /// - Otherwise it waits in the desk, in the place of one that waited. The reply has the sector's job
    ///   and heard byte as they stand, and the area is left as it is. It is loaded after the operator's
    ///   next [`fetch`](Desk::fetch) that succeeds, into the area that this one is lent.
    ///
    /// What the sector has left in the round neither pays nor is refilled. After a refusal, a matrix
    /// that waits goes on waiting.
    ///
    /// Refuses all but the operator with [`Refusal::NotAllowed`], and then, in this order, with
    /// [`Refusal::NoSuchSector`], [`Refusal::WrongKind`], [`Refusal::WrongLength`],
    /// [`Refusal::AreaTooShort`], [`Refusal::NoneHeard`]. The area is tested also where the matrix only
    /// waits.
    ///
    /// ```
    /// use hubqr::Role::Operator;
    /// # let record = [1; hubqr::MATRIX_RECORD_BYTES];
    /// # let next = [1; hubqr::MATRIX_RECORD_BYTES];
    /// # let mut area = [0; hubqr::AREA_WORDS];
    /// let mut desk = hubqr::Desk::new();
    /// let handed_in = desk.hand_in(Operator, 7, &record, &mut area)?; // loaded: nothing to do before
    /// assert_eq!(handed_in.job, hubqr::Job { turn: 0, made: 0 });
    /// assert_eq!((handed_in.heard, desk.waits[7]), (0xff, 0));
    ///
    /// desk.run(Operator, 7, 10, &mut area)?;
    /// let handed_in = desk.hand_in(Operator, 7, &next, &mut area)?; // waits: the job is unfinished
    /// assert_eq!(handed_in.job.turn, 10);
    /// assert_eq!(desk.waits[7], 1);
    ///
    /// let refused = desk.hand_in(Operator, 8, &record, &mut area);
    /// assert_eq!(refused, Err(hubqr::Refusal::NoSuchSector));
    /// # Ok::<(), hubqr::Refusal>(())
    /// ```
    pub fn hand_in(
        &mut self,
        role: Role,
        sector: u32,
        record: &[u8],
        area: &mut [i32],
    ) -> Result<HandedIn, Refusal> {
        // SAFETY: as said at the top of this file.
        let reply = unsafe {
            ffi::hubqr_desk_hand_in(
                role.number(),
                self.clone(),
                sector,
                record.as_ptr(),
                record.len(),
                area.as_mut_ptr(),
                area.len(),
            )
        };
        accepted(reply.number)?;
        *self = reply.desk;
        Ok(HandedIn {
            job: reply.job,
            heard: reply.heard,
        })
    }

    /// Goes on with a sector's job, as [`run`](crate::run) does, by the smallest of `request`, what
    /// the sector has left in the round and what its job has left. That many turns are granted, the
    /// skipped ones included; they are the reply's count, and the sector has as many less left. No
    /// other sector pays. A request of 0 and a finished job are no errors, whatever the sector has
    /// left. So for a sector that was never loaded only [`Refusal::NotAllowed`],
    /// [`Refusal::NoSuchSector`] and [`Refusal::AreaTooShort`] can come, and the area is left as it is.
    ///
    /// Refuses all but the operator with [`Refusal::NotAllowed`], and then, in this order, with
    /// [`Refusal::NoSuchSector`], [`Refusal::AreaTooShort`], [`Refusal::NoSuchJob`],
    /// [`Refusal::CountUsedUp`]. The last comes when the request is above 0, the job unfinished, and the
    /// sector has no turn left in the round, whatever the others have.
    ///
    /// ```
    /// use hubqr::Role::Operator;
    /// # let record = [1; hubqr::MATRIX_RECORD_BYTES];
    /// # let mut area = [0; hubqr::AREA_WORDS];
    /// # let mut other = [0; hubqr::AREA_WORDS];
    /// let mut desk = hubqr::Desk::new();
    /// desk.hand_in(Operator, 0, &record, &mut area)?;
    /// desk.hand_in(Operator, 1, &record, &mut other)?;
    /// assert_eq!(desk.run(Operator, 0, 10, &mut area)?.count, 10);
    /// assert_eq!(desk.run(Operator, 0, 10, &mut area)?.count, 5); // all that the sector has left
    /// assert_eq!(desk.run(Operator, 0, 10, &mut area), Err(hubqr::Refusal::CountUsedUp));
    /// assert_eq!(desk.run(Operator, 1, 10, &mut other)?.count, 10); // which is nothing to the other
    ///
    /// desk.begin(Operator)?;
    /// assert_eq!(desk.run(Operator, 0, 100, &mut area)?.job.turn, 30);
    /// # Ok::<(), hubqr::Refusal>(())
    /// ```
    pub fn run(
        &mut self,
        role: Role,
        sector: u32,
        request: u16,
        area: &mut [i32],
    ) -> Result<Progress, Refusal> {
        // SAFETY: as said at the top of this file.
        let reply = unsafe {
            ffi::hubqr_desk_run(
                role.number(),
                self.clone(),
                sector,
                request,
                area.as_mut_ptr(),
                area.len(),
            )
        };
        accepted(reply.number)?;
        *self = reply.desk;
        Ok(Progress {
            job: reply.job,
            count: reply.count,
            clamps: Clamps {
                r: reply.clamps_r,
                q: reply.clamps_q,
            },
        })
    }

    /// Writes a sector's result record into the first 2,049 bytes of the buffer, as
    /// [`fetch`](crate::fetch) does. For a sector that was never loaded, the record has the words that
    /// the area has.
    ///
    /// If a matrix waits for the sector, the operator's Fetch then brings it in: the area is filled from
    /// it, the job becomes (0, 0), the heard byte that of its record, and none waits. What the sector
    /// has left in the round neither pays nor is refilled. If none waits, and whenever a fitter fetches,
    /// desk and area stay as they are, and the same may be fetched again.
    ///
    /// Refuses the viewer with [`Refusal::NotAllowed`], and then, in this order, with
    /// [`Refusal::NoSuchSector`], [`Refusal::AreaTooShort`], [`Refusal::NoSuchJob`],
    /// [`Refusal::Unfinished`], [`Refusal::BufferTooShort`], [`Refusal::NotTriangular`]. The last never
    /// comes for a sector that was loaded, if the area that was loaded was lent to each of its calls
    /// since and nothing else has written to it. A refused Fetch brings nothing in.
    ///
    /// ```
    /// use hubqr::Role::{Fitter, Operator};
    /// # let record = [1; hubqr::MATRIX_RECORD_BYTES];
    /// # let next = [1; hubqr::MATRIX_RECORD_BYTES];
    /// # let mut area = [0; hubqr::AREA_WORDS];
    /// # let mut result = [0; hubqr::RESULT_RECORD_BYTES];
    /// let mut desk = hubqr::Desk::new();
    /// desk.hand_in(Operator, 3, &record, &mut area)?;
    /// desk.hand_in(Operator, 3, &next, &mut area)?;
    /// let early = desk.fetch(Fitter, 3, &mut area, &mut result);
    /// assert_eq!(early, Err(hubqr::Refusal::Unfinished));
    ///
    /// desk.set_shares(Operator, [0, 0, 0, 120, 0, 0, 0, 0])?;
    /// desk.begin(Operator)?;
    /// desk.run(Operator, 3, 120, &mut area)?;
    /// desk.fetch(Fitter, 3, &mut area, &mut result)?; // the result of `record`, and `next` waits on
    /// assert_eq!(result[0], hubqr::KIND_RESULT);
    /// assert_eq!((desk.jobs[3].turn, desk.waits[3]), (120, 1));
    ///
    /// desk.fetch(Operator, 3, &mut area, &mut result)?; // the same result, and `next` is brought in
    /// assert_eq!((desk.jobs[3].turn, desk.waits[3]), (0, 0));
    /// # Ok::<(), hubqr::Refusal>(())
    /// ```
    pub fn fetch(
        &mut self,
        role: Role,
        sector: u32,
        area: &mut [i32],
        buffer: &mut [u8],
    ) -> Result<(), Refusal> {
        // SAFETY: as said at the top of this file.
        let reply = unsafe {
            ffi::hubqr_desk_fetch(
                role.number(),
                self.clone(),
                sector,
                area.as_mut_ptr(),
                area.len(),
                buffer.as_mut_ptr(),
                buffer.len(),
            )
        };
        accepted(reply.number)?;
        *self = reply.desk;
        Ok(())
    }

    /// The desk's heard byte of a sector: that of the matrix last loaded, 0 if none was. One that waits
    /// is not loaded. Each role may ask for it.
    ///
    /// Refuses with [`Refusal::NoSuchSector`].
    ///
    /// ```
    /// use hubqr::Role::{Operator, Viewer};
    /// # let record = [1; hubqr::MATRIX_RECORD_BYTES];
    /// # let mut area = [0; hubqr::AREA_WORDS];
    /// # let mut result = [0; hubqr::RESULT_RECORD_BYTES];
    /// let mut desk = hubqr::Desk::new();
    /// desk.hand_in(Operator, 5, &record, &mut area)?;
    /// assert_eq!(desk.heard(Viewer, 5)?, 0xff);
    ///
    /// let refused = desk.fetch(Viewer, 5, &mut area, &mut result);
    /// assert_eq!(refused, Err(hubqr::Refusal::NotAllowed));
    /// # Ok::<(), hubqr::Refusal>(())
    /// ```
    pub fn heard(&self, role: Role, sector: u32) -> Result<u8, Refusal> {
        // SAFETY: the call takes and answers values alone.
        let reply = unsafe { ffi::hubqr_desk_heard(role.number(), self.clone(), sector) };
        accepted(reply.number)?;
        Ok(reply.heard)
    }
}

/// A new desk.
impl Default for Desk {
    fn default() -> Desk {
        Desk::new()
    }
}
