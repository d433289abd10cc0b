//! The log: results, refusal numbers and heard bytes by their days, in a buffer that the host keeps.
//!
//! Each call takes the used bytes apart into a list of entries, and what it writes is such a list as a
//! whole. An entry has a last day, and a sweep on a later one drops it. These days are 64-bit numbers,
//! which the last day of an entry of any day fits.

use crate::records::RESULT_RECORD;
use crate::replies::Refusal;

/// What an entry holds. The discriminants are the kind bytes.
#[derive(Debug, Clone, Copy, PartialEq, Eq, PartialOrd, Ord)]
#[repr(u8)]
pub enum EntryKind {
    /// A result record.
    Result = 5,
    /// A refusal number.
    Refusal = 6,
    /// A heard byte.
    Heard = 7,
}

impl EntryKind {
    pub const ALL: [EntryKind; 3] = [EntryKind::Result, EntryKind::Refusal, EntryKind::Heard];

    /// The kind with this number, if there is one.
    pub fn of(number: u32) -> Option<EntryKind> {
        let mut kinds = EntryKind::ALL.into_iter();
        kinds.find(|kind| u32::from(kind.number()) == number)
    }

    pub fn number(self) -> u8 {
        self as u8
    }

    /// Bytes of the body.
    pub fn body_bytes(self) -> usize {
        match self {
            EntryKind::Result => RESULT_RECORD,
            EntryKind::Refusal | EntryKind::Heard => 1,
        }
    }

    /// On so many days it is there, that of the entry itself included.
    pub fn days(self) -> i64 {
        match self {
            EntryKind::Result => 7,
            EntryKind::Refusal => 30,
            EntryKind::Heard => 90,
        }
    }
}

/// An entry by itself. The body has the length that the kind fixes, and may be any bytes.
#[derive(Debug, Clone, PartialEq, Eq)]
pub struct Entry {
    pub kind: EntryKind,
    pub day: u32,
    pub body: Vec<u8>,
}

impl Entry {
    /// An entry of what is handed over: tests 1 and 2.
    fn handed(kind: u32, day: u32, body: &[u8]) -> Result<Entry, Refusal> {
        let kind = EntryKind::of(kind).ok_or(Refusal::Kind)?;
        if body.len() != kind.body_bytes() {
            return Err(Refusal::Length);
        }
        let body = body.to_vec();
        Ok(Entry { kind, day, body })
    }

    /// The entry that bytes begin with, if a whole one stands there, and the bytes behind it.
    fn split(bytes: &[u8]) -> Option<(Entry, &[u8])> {
        let (kind, rest) = bytes.split_first()?;
        let kind = EntryKind::of(u32::from(*kind))?;
        let (day, rest) = rest.split_first_chunk()?;
        let (body, rest) = rest.split_at_checked(kind.body_bytes())?;
        let (day, body) = (u32::from_be_bytes(*day), body.to_vec());
        Some((Entry { kind, day, body }, rest))
    }

    /// The entry as it stands in a log.
    pub fn bytes(&self) -> Vec<u8> {
        let (kind, day) = ([self.kind.number()], self.day.to_be_bytes());
        [&kind[..], &day, &self.body].concat()
    }

    /// The last day on which it is there.
    fn last_day(&self) -> i64 {
        i64::from(self.day) + self.kind.days() - 1
    }
}

/// What adding and sweeping answer. That of a refused call has no used count.
#[derive(Debug, Clone, Copy, Default, PartialEq, Eq)]
pub struct LogReply {
    pub number: u8,
    pub used: usize,
}

/// What reading answers: an entry, with the places of its body and of the entry behind it. At the end
/// there is only the place, and in a refused call nothing.
#[derive(Debug, Clone, Copy, Default, PartialEq, Eq)]
pub struct EntryReply {
    pub number: u8,
    pub kind: u32,
    pub day: u32,
    pub body: usize,
    pub body_len: usize,
    pub next: usize,
}

impl From<Refusal> for LogReply {
    fn from(refusal: Refusal) -> Self {
        LogReply {
            number: refusal.number(),
            ..LogReply::default()
        }
    }
}

impl From<Refusal> for EntryReply {
    fn from(refusal: Refusal) -> Self {
        EntryReply {
            number: refusal.number(),
            ..EntryReply::default()
        }
    }
}

/// Adds an entry behind the others. Nothing is swept.
pub fn add(kind: u32, day: u32, body: &[u8], used: usize, buffer: &mut [u8]) -> LogReply {
    accept_add(kind, day, body, used, buffer).unwrap_or_else(LogReply::from)
}

/// Drops every entry whose last day is before this one. Those that stay stand one after another again.
pub fn sweep(day: u32, used: usize, buffer: &mut [u8]) -> LogReply {
    accept_sweep(day, used, buffer).unwrap_or_else(LogReply::from)
}

/// Reads the entry at a place. What stands before and behind it is not asked.
pub fn next(at: usize, used: usize, buffer: &[u8]) -> EntryReply {
    accept_next(at, used, buffer).unwrap_or_else(EntryReply::from)
}

fn accept_add(
    kind: u32,
    day: u32,
    body: &[u8],
    used: usize,
    buffer: &mut [u8],
) -> Result<LogReply, Refusal> {
    let mut entries = entries(used, buffer)?;
    entries.push(Entry::handed(kind, day, body)?);
    write(&entries, buffer)
}

fn accept_sweep(day: u32, used: usize, buffer: &mut [u8]) -> Result<LogReply, Refusal> {
    let mut entries = entries(used, buffer)?;
    entries.retain(|entry| i64::from(day) <= entry.last_day());
    write(&entries, buffer)
}

fn accept_next(at: usize, used: usize, buffer: &[u8]) -> Result<EntryReply, Refusal> {
    let bytes = buffer.get(..used).ok_or(Refusal::Log)?;
    let from = bytes.get(at..).ok_or(Refusal::Log)?;
    if from.is_empty() {
        return Ok(EntryReply {
            next: used,
            ..EntryReply::default()
        });
    }
    let (entry, behind) = Entry::split(from).ok_or(Refusal::Log)?;
    let next = used - behind.len();
    Ok(EntryReply {
        number: 0,
        kind: entry.kind.number().into(),
        day: entry.day,
        body: next - entry.body.len(),
        body_len: entry.body.len(),
        next,
    })
}

/// The entries of the used bytes.
fn entries(used: usize, buffer: &[u8]) -> Result<Vec<Entry>, Refusal> {
    let mut rest = buffer.get(..used).ok_or(Refusal::Log)?;
    let mut entries = Vec::new();
    while !rest.is_empty() {
        let (entry, behind) = Entry::split(rest).ok_or(Refusal::Log)?;
        entries.push(entry);
        rest = behind;
    }
    Ok(entries)
}

/// Writes entries to the start of the buffer, where all of them fit, and nothing behind them.
fn write(entries: &[Entry], buffer: &mut [u8]) -> Result<LogReply, Refusal> {
    let bytes: Vec<Vec<u8>> = entries.iter().map(Entry::bytes).collect();
    let bytes = bytes.concat();
    let room = buffer.get_mut(..bytes.len()).ok_or(Refusal::Room)?;
    room.copy_from_slice(&bytes);
    Ok(LogReply {
        number: 0,
        used: bytes.len(),
    })
}

#[cfg(test)]
mod tests {
    use super::*;

    const HEARD: u32 = 7;

    fn entry(kind: EntryKind, day: u32, byte: u8) -> Entry {
        let body = vec![byte; kind.body_bytes()];
        Entry { kind, day, body }
    }

    /// A buffer of that many bytes, 0xEE behind the entries, and the used count.
    fn log(entries: &[Entry], bytes: usize) -> (Vec<u8>, usize) {
        let mut buffer = vec![0xEE; bytes];
        let reply = write(entries, &mut buffer).expect("the entries fit");
        (buffer, reply.used)
    }

    fn accepted(used: usize) -> LogReply {
        LogReply { number: 0, used }
    }

    #[test]
    fn an_entry_is_its_kind_its_day_high_byte_first_and_its_body() {
        let mut buffer = [0xEE; 13];
        let reply = add(HEARD, 0x0102_0304, &[0xAB], 0, &mut buffer);
        assert_eq!(reply, accepted(6));
        let reply = add(6, 20_000, &[4], reply.used, &mut buffer);
        assert_eq!(reply, accepted(12));
        assert_eq!(buffer, [7, 1, 2, 3, 4, 0xAB, 6, 0, 0, 78, 32, 4, 0xEE]);
    }

    #[test]
    fn a_result_of_day_100_is_there_on_106_and_swept_on_107() {
        for (kind, first) in EntryKind::ALL.into_iter().zip([107, 130, 190]) {
            let (mut buffer, used) = log(&[entry(kind, 100, 9)], 2_060);
            let before = buffer.clone();
            for day in [0, 99, 100, first - 1] {
                assert_eq!(sweep(day, used, &mut buffer), accepted(used));
            }
            assert_eq!(sweep(first, used, &mut buffer), accepted(0));
            assert_eq!(sweep(u32::MAX, used, &mut buffer), accepted(0));
            assert_eq!(buffer, before);
        }
    }

    #[test]
    fn the_last_days_do_not_wrap() {
        for kind in EntryKind::ALL {
            let days = kind.days() as u32;
            let (mut buffer, used) = log(&[entry(kind, u32::MAX - days, 0)], 2_060);
            assert_eq!(sweep(u32::MAX - 1, used, &mut buffer), accepted(used));
            assert_eq!(sweep(u32::MAX, used, &mut buffer), accepted(0));
            let (mut buffer, used) = log(&[entry(kind, u32::MAX - days + 1, 0)], 2_060);
            assert_eq!(sweep(u32::MAX, used, &mut buffer), accepted(used));
        }
    }

    #[test]
    fn a_sweep_closes_gaps_keeps_the_order_and_leaves_what_is_behind() {
        let [old, late] = [
            entry(EntryKind::Heard, 10, 1),
            entry(EntryKind::Heard, 99, 2),
        ];
        let [result, refusal] = [EntryKind::Result, EntryKind::Refusal].map(|k| entry(k, 95, 3));
        let all = [
            old.clone(),
            result.clone(),
            old,
            refusal.clone(),
            late.clone(),
        ];
        let (mut buffer, used) = log(&all, 2_080);
        let before = buffer.clone();
        let due = [result.bytes(), refusal.bytes(), late.bytes()].concat();
        assert_eq!(sweep(100, used, &mut buffer), accepted(due.len()));
        assert_eq!(buffer[..due.len()], due);
        assert_eq!(buffer[due.len()..], before[due.len()..]);
        let swept = buffer.clone();
        assert_eq!(sweep(100, due.len(), &mut buffer), accepted(due.len()));
        assert_eq!(buffer, swept);
    }

    #[test]
    fn used_counts_end_on_an_entry() {
        let kinds = [EntryKind::Refusal, EntryKind::Result, EntryKind::Heard];
        let (mut buffer, used) = log(&kinds.map(|kind| entry(kind, 1, 5)), 2_070);
        assert_eq!(used, 2_066);
        for count in (0..2_080).chain([usize::MAX]) {
            let whole = [0, 6, 2_060, 2_066].contains(&count);
            let number = if whole { 0 } else { 16 };
            assert_eq!(sweep(0, count, &mut buffer).number, number, "{count}");
        }
        buffer[6] = 4;
        assert_eq!(sweep(0, 6, &mut buffer), accepted(6));
        assert_eq!(sweep(0, used, &mut buffer), LogReply::from(Refusal::Log));
    }

    #[test]
    fn adding_makes_its_tests_in_order_and_a_refusal_changes_nothing() {
        let (mut buffer, used) = log(&[entry(EntryKind::Heard, 1, 5)], 11);
        let before = buffer.clone();
        for (kind, body, count, refusal) in [
            (9, 0, used + 1, Refusal::Log),
            (9, 0, used + 6, Refusal::Log),
            (9, 0, used, Refusal::Kind),
            (256 + 7, 1, 0, Refusal::Kind),
            (5, 2_048, used, Refusal::Length),
            (7, 0, 0, Refusal::Length),
            (7, 1, used, Refusal::Room),
            (5, 2_049, 0, Refusal::Room),
        ] {
            let reply = add(kind, 1, &vec![0; body], count, &mut buffer);
            assert_eq!(reply, LogReply::from(refusal), "{kind}, {body}, {count}");
        }
        assert_eq!(buffer, before);
        buffer.push(0xEE);
        assert_eq!(add(HEARD, 1, &[8], used, &mut buffer), accepted(12));
    }

    #[test]
    fn no_bytes_are_a_log_of_no_entries() {
        assert_eq!(sweep(7, 0, &mut []), accepted(0));
        assert_eq!(next(0, 0, &[]), EntryReply::default());
        let refused = [(8, 17, 1), (5, 1, 2), (6, 1, 17)];
        for (kind, bytes, number) in refused {
            assert_eq!(add(kind, 7, &vec![0; bytes], 0, &mut []).number, number);
        }
    }

    #[test]
    fn a_log_is_read_entry_by_entry() {
        let all = [
            entry(EntryKind::Result, 3, 7),
            entry(EntryKind::Heard, u32::MAX, 8),
        ];
        let (buffer, used) = log(&all, 2_070);
        let first = next(0, used, &buffer);
        let places = |kind, day, body, body_len, next| EntryReply {
            number: 0,
            kind,
            day,
            body,
            body_len,
            next,
        };
        assert_eq!(first, places(5, 3, 5, 2_049, 2_054));
        let second = next(first.next, used, &buffer);
        assert_eq!(second, places(7, u32::MAX, 2_059, 1, 2_060));
        assert_eq!(next(second.next, used, &buffer), places(0, 0, 0, 0, 2_060));
        let refused = [
            (2_061, used),
            (2_054, 2_059),
            (4, used),
            (0, 2_071),
            (9, usize::MAX),
        ];
        for (at, used) in refused {
            assert_eq!(next(at, used, &buffer), EntryReply::from(Refusal::Log));
        }
        assert_eq!(next(5, 11, &buffer), places(7, 0x0707_0707, 10, 1, 11));
    }
}
