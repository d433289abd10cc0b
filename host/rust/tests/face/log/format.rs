//! Entries as the format has them, written without the archive.
use hubqr::{Body, Entry, RESULT_RECORD_BYTES};

/// The kinds of entries, with the bytes of their bodies and the days that they stay.
pub const KINDS: [(u32, usize, u32); 3] = [(5, RESULT_RECORD_BYTES, 7), (6, 1, 30), (7, 1, 90)];

/// What no call writes.
pub const SCRIBBLE: u8 = 0xa5;

/// Days at both ends of the range and around what a signed number would hold.
pub const DAYS: [u32; 7] = [
    0,
    1,
    20_000,
    0x0102_0304,
    i32::MAX as u32,
    1 << 31,
    u32::MAX,
];

/// A body of so many bytes, which differ from place to place and are kinds among others.
pub fn body(bytes: usize, seed: u8) -> Vec<u8> {
    let byte = |place: usize| (place as u8).wrapping_mul(7) ^ seed;
    (0..bytes).map(byte).collect()
}

/// The bytes of an entry.
pub fn written(kind: u32, day: u32, body: &[u8]) -> Vec<u8> {
    [&[kind as u8], &day.to_be_bytes()[..], body].concat()
}

/// The entry that has these bytes.
pub fn entry(bytes: &[u8]) -> Entry<'_> {
    let (head, body) = bytes.split_at(5);
    let body = match head[0] {
        5 => Body::Result(body.try_into().unwrap()),
        6 => Body::Refusal(body[0]),
        7 => Body::Heard(body[0]),
        kind => panic!("{kind} is no kind"),
    };
    let day = u32::from_be_bytes(head[1..].try_into().unwrap());
    Entry { day, body }
}

/// An entry of each kind on a day, with the days of the others around it.
pub fn of_each_kind(day: u32) -> Vec<Vec<u8>> {
    let kinds = KINDS.into_iter().zip(0..);
    let entry = |((kind, bytes, _), k): ((u32, usize, u32), u32)| {
        written(kind, day + k, &body(bytes, kind as u8))
    };
    kinds.map(entry).collect()
}

/// Bytes in a buffer that goes on behind them.
pub fn in_buffer(used: &[u8], behind: usize) -> Vec<u8> {
    [used, &vec![SCRIBBLE; behind]].concat()
}

/// Bytes that are no whole run of entries: something is no kind, or the last entry is cut.
pub fn broken() -> Vec<Vec<u8>> {
    let whole = of_each_kind(100).concat();
    let mut broken = vec![[&whole[..], &whole[..2053]].concat()];
    for kind in [0, 1, 4, 8, 0xff] {
        let alone = written(kind, 100, &[1]);
        broken.push([&alone[..], &whole].concat());
        broken.push([&whole[..], &alone].concat());
        broken.push(alone);
    }
    for bytes in [1, 2, 5, 6, 2053, 2055, 2059, 2061, 2065] {
        broken.push(whole[..bytes].to_vec());
    }
    broken
}
