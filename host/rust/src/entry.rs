//! The entries of a log: what each holds, and reading them one after another.
use core::iter::FusedIterator;
use core::slice;

use crate::calls::accepted;
use crate::ffi::{self, LogEntry};
use crate::refusal::Refusal;
use crate::{LOG_HEAD_BYTES, LOG_HEARD_BYTES, LOG_RESULT_BYTES, RESULT_RECORD_BYTES};
use crate::{
    LOG_HEARD, LOG_HEARD_DAYS, LOG_REFUSAL, LOG_REFUSAL_DAYS, LOG_RESULT, LOG_RESULT_DAYS,
};

/// What an entry of a log holds, by its kind. It is stored, kept and read untested: a result may be any
/// 2,049 bytes, and a refusal number or a heard byte any byte.
#[derive(Clone, Copy, Debug, PartialEq, Eq)]
pub enum Body<'a> {
    /// A result record, of kind [`LOG_RESULT`].
    Result(&'a [u8; RESULT_RECORD_BYTES]),
    /// A refusal number, of kind [`LOG_REFUSAL`]. [`Refusal::try_from`] says which refusal it names.
    Refusal(u8),
    /// A heard byte, of kind [`LOG_HEARD`]. Bit k is set when antenna k was heard.
    Heard(u8),
}

impl<'a> Body<'a> {
    /// The kind of an entry that has this body: 5, 6 or 7.
    pub const fn kind(&self) -> u32 {
        match self {
            Body::Result(_) => LOG_RESULT,
            Body::Refusal(_) => LOG_REFUSAL,
            Body::Heard(_) => LOG_HEARD,
        }
    }

    /// How many days an entry that has this body stays: 7, 30 or 90.
    pub const fn days(&self) -> u32 {
        match self {
            Body::Result(_) => LOG_RESULT_DAYS,
            Body::Refusal(_) => LOG_REFUSAL_DAYS,
            Body::Heard(_) => LOG_HEARD_DAYS,
        }
    }

    /// The body as it stands in the log: 2,049 bytes of a result, and one otherwise.
    pub const fn bytes(&self) -> &[u8] {
        match self {
            Body::Result(record) => *record,
            Body::Refusal(byte) | Body::Heard(byte) => slice::from_ref(byte),
        }
    }

    /// The body of an entry that the archive has read. It answers no kind and no length but these.
    fn read(kind: u32, bytes: &'a [u8]) -> Body<'a> {
        match (kind, bytes, bytes.try_into()) {
            (LOG_RESULT, _, Ok(record)) => Body::Result(record),
            (LOG_REFUSAL, &[number], _) => Body::Refusal(number),
            (LOG_HEARD, &[heard], _) => Body::Heard(heard),
            _ => panic!(
                "libhubqr.a does not fit this crate: an entry of kind {kind} with {} bytes",
                bytes.len()
            ),
        }
    }
}

/// An entry of a log.
#[derive(Clone, Copy, Debug, PartialEq, Eq)]
pub struct Entry<'a> {
    /// The day number that it was added with, counted from 1 January 1970.
    pub day: u32,
    /// What it holds.
    pub body: Body<'a>,
}

impl<'a> Entry<'a> {
    /// Reads the entry that stands at a place of a log's used bytes. At their end there is none. Places
    /// are 0, and from each entry on [`length`](Entry::length) bytes farther.
    ///
    /// It looks at this one entry alone, so that what stands before bytes that are no log can be read.
    /// [`Entries`] reads whole logs.
    ///
    /// Refuses with [`Refusal::BrokenLog`] a place behind the end, and one at which no whole entry
    /// stands. A place in the middle of an entry is not noticed if what stands there looks like one.
    ///
    /// ```
    /// use hubqr::{Body, Entry};
    ///
    /// let used = [7, 0, 0, 78, 32, 0xff, 9]; // an entry of six bytes, and no kind
    /// let entry = Entry::read(0, &used)?.unwrap();
    /// assert_eq!((entry.day, entry.body), (20_000, Body::Heard(0xff)));
    ///
    /// let next = entry.length();
    /// assert_eq!(Entry::read(next, &used[..next]), Ok(None));
    /// assert_eq!(Entry::read(next, &used), Err(hubqr::Refusal::BrokenLog));
    /// # Ok::<(), hubqr::Refusal>(())
    /// ```
    pub fn read(at: usize, used: &'a [u8]) -> Result<Option<Entry<'a>>, Refusal> {
        let entry = next(at, used.len(), used)?;
        Ok((at < used.len()).then(|| Entry {
            day: entry.day,
            body: Body::read(entry.kind, &used[entry.body..][..entry.body_len]),
        }))
    }

    /// How many bytes of the log it takes: those of its kind, its day and its body.
    pub const fn length(&self) -> usize {
        LOG_HEAD_BYTES + self.body.bytes().len()
    }

    /// The first day on which a [sweep](crate::Journal::sweep) takes it out. No sweep can be asked for a
    /// day above [`u32::MAX`].
    ///
    /// ```
    /// use hubqr::{Body, Entry};
    ///
    /// let entry = Entry { day: 100, body: Body::Result(&[0; hubqr::RESULT_RECORD_BYTES]) };
    /// assert_eq!(entry.swept_from(), 107);
    /// ```
    pub const fn swept_from(&self) -> u64 {
        self.day as u64 + self.body.days() as u64
    }
}

/// The entries of a log in the order in which they were added, which is that of their places.
/// [`Journal::entries`](crate::Journal::entries) has those of a journal.
#[derive(Clone, Debug)]
pub struct Entries<'a> {
    used: &'a [u8],
    place: usize,
}

impl<'a> Entries<'a> {
    /// The entries of a log of which these are the used bytes, for a reader that has no [`Journal`] of
    /// it, as a tool that was given a file.
    ///
    /// Refuses with [`Refusal::BrokenLog`] bytes that are no whole run of entries. No byte at all is a
    /// run of none.
    ///
    /// [`Journal`]: crate::Journal
    ///
    /// ```
    /// use hubqr::{Body, Entries};
    ///
    /// let used = [6, 0, 0, 0, 100, 4, 7, 0, 0, 0, 101, 0b0010_0100];
    /// let bodies: Vec<Body> = Entries::of(&used)?.map(|entry| entry.body).collect();
    /// assert_eq!(bodies, [Body::Refusal(4), Body::Heard(0b0010_0100)]);
    ///
    /// let cut = Entries::of(&used[..11]);
    /// assert_eq!(cut.err(), Some(hubqr::Refusal::BrokenLog));
    /// # Ok::<(), hubqr::Refusal>(())
    /// ```
    pub fn of(used: &'a [u8]) -> Result<Entries<'a>, Refusal> {
        whole_run(used.len(), used)?;
        Ok(Entries::of_whole_run(used))
    }

    /// Those of bytes that are known to be a whole run.
    pub(crate) fn of_whole_run(used: &'a [u8]) -> Entries<'a> {
        Entries { used, place: 0 }
    }

    /// The place of the entry that comes next, and at the end the used count.
    pub fn place(&self) -> usize {
        self.place
    }
}

impl<'a> Iterator for Entries<'a> {
    type Item = Entry<'a>;

    fn next(&mut self) -> Option<Entry<'a>> {
        let read = Entry::read(self.place, self.used);
        let entry = read.expect("libhubqr.a does not fit this crate: these are whole entries")?;
        self.place += entry.length();
        Some(entry)
    }

    /// As few as if all were results, and as many as if none were.
    fn size_hint(&self) -> (usize, Option<usize>) {
        let bytes = self.used.len() - self.place;
        let fewest = bytes.div_ceil(LOG_RESULT_BYTES);
        (fewest, Some(bytes / LOG_HEARD_BYTES))
    }
}

impl FusedIterator for Entries<'_> {}

/// Refuses with [`Refusal::BrokenLog`] a used count that passes the buffer, or bytes below it that are no
/// whole run of entries.
pub(crate) fn whole_run(used: usize, buffer: &[u8]) -> Result<(), Refusal> {
    let mut at = 0;
    loop {
        let entry = next(at, used, buffer)?;
        if at == used {
            return Ok(());
        }
        at = entry.next;
    }
}

fn next(at: usize, used: usize, buffer: &[u8]) -> Result<LogEntry, Refusal> {
    // SAFETY: the slice's pointer and length describe memory that may be read, and the archive reads
    // no other, writes none and keeps no pointer.
    let entry = unsafe { ffi::hubqr_log_next(at, used, buffer.as_ptr(), buffer.len()) };
    accepted(entry.number)?;
    Ok(entry)
}
