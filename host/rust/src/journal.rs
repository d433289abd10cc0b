//! The log: entries in a lent buffer, added, swept and read.
//!
//! Each `unsafe` block rests on what `calls.rs` says of slices.
use core::fmt::{self, Debug, Formatter};

use crate::calls::accepted;
use crate::entry::{whole_run, Body, Entries, Entry};
use crate::ffi;
use crate::refusal::Refusal;

/// A log in a lent buffer: entries one after another, each with the day that it was added with. It holds
/// the buffer, and the **used count**, which says how many bytes from the buffer's start on the entries
/// take.
///
/// | Kind | Holds | Bytes | Stays |
/// |---|---|--:|--:|
/// | 5, [`LOG_RESULT`](crate::LOG_RESULT) | a result record | 2,054 | 7 days |
/// | 6, [`LOG_REFUSAL`](crate::LOG_REFUSAL) | a refusal number | 6 | 30 days |
/// | 7, [`LOG_HEARD`](crate::LOG_HEARD) | a heard byte | 6 | 90 days |
///
/// In the buffer an entry is its kind byte, its day in four bytes, high byte first, and then its
/// **body**, what it holds, which is stored untested. A day is counted from 1 January 1970. There is no
/// clock here: the host says which day it is, and is believed.
///
/// A **sweep** takes out what has been there long enough: on day d an entry stays while d is less than
/// its own day plus the days of its kind. A result of day 100 is there on day 106 and swept on day 107.
/// An entry dated after the sweep's day stays. Only [`sweep`](Journal::sweep) takes entries out, so a
/// host calls it every day.
///
/// **What was swept may still stand in the buffer**, behind the used bytes, until it is overwritten. No
/// call reads it there. [`unused`](Journal::unused) has these bytes for a host that clears them.
///
/// For a journal that came from [`new`](Journal::new), whatever calls are made, and whatever is written
/// to [`unused`](Journal::unused):
///
/// - the used bytes hold exactly the entries that were added and that no later sweep found too old, in
///   the order in which they were added, and [`entries`](Journal::entries) reads them back;
/// - an entry of a known kind, with the bytes of that kind, is added exactly if it fits behind those:
///   what a sweep has freed is used again.
///
/// A refused call changes neither the used count nor any byte of the buffer. Adding and sweeping take
/// time that is linear in the used bytes, since both test them all.
///
/// ```
/// use hubqr::{Body, Journal};
///
/// let mut buffer = [0; 4096];
/// let mut journal = Journal::new(&mut buffer);
/// journal.add(100, Body::Heard(0b1101_1111))?;
/// journal.add(100, Body::Result(&[0; hubqr::RESULT_RECORD_BYTES]))?;
/// assert_eq!(journal.used(), 6 + 2054);
///
/// journal.sweep(106);
/// assert_eq!(journal.entries().count(), 2);
/// journal.sweep(107); // the result has been there for seven days
/// let days: Vec<u32> = journal.entries().map(|entry| entry.day).collect();
/// assert_eq!((days, journal.used()), (vec![100], 6));
/// # Ok::<(), hubqr::Refusal>(())
/// ```
pub struct Journal<'a> {
    buffer: &'a mut [u8],
    used: usize,
}

impl<'a> Journal<'a> {
    /// A log of no entries. What the buffer holds is neither read nor changed.
    pub fn new(buffer: &'a mut [u8]) -> Journal<'a> {
        Journal { buffer, used: 0 }
    }

    /// A log that was kept elsewhere: the buffer and the used count that
    /// [`into_parts`](Journal::into_parts) gave.
    ///
    /// Refuses with [`Refusal::BrokenLog`] a used count that passes the buffer, or under which there is
    /// no whole run of entries. Another count that ends on an entry is not noticed: a lower one loses the
    /// entries behind it, and one from before a sweep may bring back what was swept.
    ///
    /// ```
    /// use hubqr::{Body, Journal, Refusal};
    ///
    /// let mut buffer = [0; 100];
    /// let mut journal = Journal::new(&mut buffer);
    /// journal.add(100, Body::Refusal(Refusal::NoneHeard.number()))?;
    /// let (_, used) = journal.into_parts();
    ///
    /// let mut journal = Journal::open(&mut buffer, used)?;
    /// journal.add(101, Body::Heard(0xff))?;
    /// assert_eq!(journal.entries().count(), 2);
    ///
    /// assert_eq!(Journal::open(&mut buffer, 7).err(), Some(Refusal::BrokenLog));
    /// # Ok::<(), hubqr::Refusal>(())
    /// ```
    pub fn open(buffer: &'a mut [u8], used: usize) -> Result<Journal<'a>, Refusal> {
        whole_run(used, buffer)?;
        Ok(Journal { buffer, used })
    }

    /// Adds an entry behind the others. It does not sweep.
    ///
    /// Refuses with [`Refusal::NoRoom`] an entry that does not fit behind the used bytes.
    ///
    /// ```
    /// use hubqr::{Body, Journal, Refusal};
    ///
    /// let mut buffer = [0; 6];
    /// let mut journal = Journal::new(&mut buffer);
    /// journal.add(100, Body::Heard(1))?; // fits exactly
    /// assert_eq!(journal.add(190, Body::Heard(2)), Err(Refusal::NoRoom));
    ///
    /// journal.sweep(190);
    /// journal.add(190, Body::Heard(2))?; // in the place of what was swept
    /// # Ok::<(), hubqr::Refusal>(())
    /// ```
    pub fn add(&mut self, day: u32, body: Body<'_>) -> Result<(), Refusal> {
        self.add_bytes(body.kind(), day, body.bytes())
    }

    /// Adds an entry behind the others, as [`add`](Journal::add) does, with its kind as a number and
    /// its body in bytes: for a host that has them so, as a result in a slice.
    ///
    /// Refuses, in this order, with [`Refusal::WrongKind`] a kind other than 5 to 7,
    /// [`Refusal::WrongLength`] a body that has not the bytes of its kind, 2,049 for a result and one
    /// otherwise, and [`Refusal::NoRoom`].
    ///
    /// ```
    /// use hubqr::{Body, Journal, Refusal, LOG_HEARD};
    ///
    /// let mut buffer = [0; 100];
    /// let mut journal = Journal::new(&mut buffer);
    /// journal.add_bytes(LOG_HEARD, 100, &[0xff])?;
    /// assert_eq!(journal.entries().next().unwrap().body, Body::Heard(0xff));
    ///
    /// assert_eq!(journal.add_bytes(261, 100, &[0xff]), Err(Refusal::WrongKind));
    /// assert_eq!(journal.add_bytes(LOG_HEARD, 100, &[]), Err(Refusal::WrongLength));
    /// # Ok::<(), hubqr::Refusal>(())
    /// ```
    pub fn add_bytes(&mut self, kind: u32, day: u32, body: &[u8]) -> Result<(), Refusal> {
        // SAFETY: as said at the top of this file.
        let reply = unsafe {
            ffi::hubqr_log_add(
                kind,
                day,
                body.as_ptr(),
                body.len(),
                self.used,
                self.buffer.as_mut_ptr(),
                self.buffer.len(),
            )
        };
        accepted(reply.number)?;
        self.used = reply.used;
        Ok(())
    }

    /// Takes out all entries that have been there long enough on a day, closes the gaps and keeps the
    /// order of the others. The bytes from the used count on that it leaves are as they were before, so
    /// that **what was swept may still stand there**, until it is overwritten or the host clears it.
    ///
    /// It refuses nothing.
    ///
    /// ```
    /// use hubqr::{Body, Journal};
    ///
    /// let mut buffer = [0; 100];
    /// let mut journal = Journal::new(&mut buffer);
    /// journal.add(131, Body::Refusal(9))?; // dated after the sweep's day
    /// journal.add(100, Body::Refusal(4))?;
    /// journal.sweep(130); // the second has been there for thirty days
    /// assert_eq!(journal.bytes(), [6, 0, 0, 0, 131, 9]);
    /// assert_eq!(journal.unused()[..6], [6, 0, 0, 0, 100, 4]); // swept, and not cleared
    ///
    /// journal.unused().fill(0); // so that it cannot be found
    /// # Ok::<(), hubqr::Refusal>(())
    /// ```
    pub fn sweep(&mut self, day: u32) {
        let (buffer, bytes) = (self.buffer.as_mut_ptr(), self.buffer.len());
        // SAFETY: as said at the top of this file.
        let reply = unsafe { ffi::hubqr_log_sweep(day, self.used, buffer, bytes) };
        accepted(reply.number)
            .expect("libhubqr.a does not fit this crate: these are whole entries");
        self.used = reply.used;
    }

    /// The entries in the order in which they were added.
    pub fn entries(&self) -> Entries<'_> {
        Entries::of_whole_run(self.bytes())
    }

    /// The used count: how many bytes the entries take.
    pub fn used(&self) -> usize {
        self.used
    }

    /// The used bytes, which are all of the log: [`Entries::of`] reads them elsewhere.
    pub fn bytes(&self) -> &[u8] {
        &self.buffer[..self.used]
    }

    /// The bytes behind the used ones, in which what was swept may still stand. The next entries are
    /// written there, and nothing of the log depends on what they hold: a host may clear them.
    pub fn unused(&mut self) -> &mut [u8] {
        &mut self.buffer[self.used..]
    }

    /// The buffer and the used count, for [`open`](Journal::open). The whole buffer may hold what was
    /// swept: to keep or hand on the log alone, take its first bytes, as many as are used.
    pub fn into_parts(self) -> (&'a mut [u8], usize) {
        (self.buffer, self.used)
    }
}

/// The entries in the order in which they were added.
impl<'j> IntoIterator for &'j Journal<'_> {
    type Item = Entry<'j>;
    type IntoIter = Entries<'j>;

    fn into_iter(self) -> Entries<'j> {
        self.entries()
    }
}

/// Says how much is used of how much, and nothing of what the buffer holds: that may be what was swept.
impl Debug for Journal<'_> {
    fn fmt(&self, f: &mut Formatter<'_>) -> fmt::Result {
        let mut parts = f.debug_struct("Journal");
        parts.field("used", &self.used);
        parts.field("buffer_bytes", &self.buffer.len());
        parts.finish()
    }
}
