//! Entries, and the logs that they make.

use reference::log::{Entry, EntryKind};
use reference::random::Random;

/// Bytes of an entry before its body: the kind and the day.
pub const HEAD: usize = 5;

/// On so many days an entry is there.
pub fn days(kind: EntryKind) -> u64 {
    match kind {
        EntryKind::Result => 7,
        EntryKind::Refusal => 30,
        EntryKind::Heard => 90,
    }
}

/// Whether an entry is there on a day.
pub fn stays(entry: &Entry, day: u32) -> bool {
    u64::from(day) < u64::from(entry.day) + days(entry.kind)
}

/// How bodies are drawn.
#[derive(Debug, Clone, Copy)]
pub enum Bodies {
    Any,
    /// Bytes that are kinds, so that an entry seems to stand at every place.
    Kinds,
    /// One byte at all places.
    One,
}

impl Bodies {
    pub const ALL: [Bodies; 3] = [Bodies::Any, Bodies::Kinds, Bodies::One];

    pub fn draw(self, bytes: usize, random: &mut Random) -> Vec<u8> {
        let one = random.byte();
        let mut draw = || match self {
            Bodies::Any => random.byte(),
            Bodies::Kinds => random.choose(&[5, 6, 7]),
            Bodies::One => one,
        };
        (0..bytes).map(|_| draw()).collect()
    }
}

/// An entry with a body of any kind.
pub fn entry(kind: EntryKind, day: u32, random: &mut Random) -> Entry {
    let bodies = random.choose(&Bodies::ALL);
    let body = bodies.draw(kind.body_bytes(), random);
    Entry { kind, day, body }
}

/// Entries of these kinds, all of one day.
pub fn entries(kinds: &[EntryKind], day: u32, random: &mut Random) -> Vec<Entry> {
    let kinds = kinds.iter();
    kinds.map(|kind| entry(*kind, day, random)).collect()
}

/// The bytes of entries one after another.
pub fn bytes(entries: &[Entry]) -> Vec<u8> {
    let bytes: Vec<Vec<u8>> = entries.iter().map(Entry::bytes).collect();
    bytes.concat()
}

/// The used counts that end on an entry, or on none.
pub fn ends(entries: &[Entry]) -> Vec<usize> {
    let mut ends = vec![0];
    for entry in entries {
        let start = ends[ends.len() - 1];
        ends.push(start + HEAD + entry.body.len());
    }
    ends
}
