//! Calls that contenders are compared on: such as a host makes, and others.

use hubqr::RESULT_RECORD_BYTES;
use reference::random::Random;

use super::logs::written;

/// Kinds, with the bytes of their bodies, and numbers that are none.
const KINDS: [(u32, usize); 3] = [(5, RESULT_RECORD_BYTES), (6, 1), (7, 1)];
const NO_KINDS: [u32; 7] = [0, 4, 8, 255, 261, 65_542, u32::MAX];

/// Days at the ends of the range and around what a signed number would hold.
const DAYS: [u32; 6] = [0, 6, i32::MAX as u32, 1 << 31, u32::MAX - 30, u32::MAX];

#[derive(Clone, Debug)]
pub enum Call {
    /// Kind, day, body and used count.
    Add(u32, u32, Vec<u8>, usize),
    /// Day and used count.
    Sweep(u32, usize),
    /// Place and used count.
    Next(usize, usize),
}

impl Call {
    /// A call about a day, on a log that uses so many of so many bytes. Now and then something is
    /// wrong.
    pub fn any(random: &mut Random, day: u32, used: usize, bytes: usize) -> Call {
        let used = any_count(random, used, bytes);
        match random.below(8) {
            0 => Call::Sweep(any_day(random, day), used),
            1 => Call::Next(any_count(random, 0, bytes), used),
            _ => {
                let (kind, body) = any_entry(random);
                Call::Add(kind, any_day(random, day), body, used)
            }
        }
    }

    pub fn used(&self) -> usize {
        match *self {
            Call::Add(.., used) | Call::Sweep(_, used) | Call::Next(_, used) => used,
        }
    }
}

/// The right count or, once in eight times, any up to the end and a few that pass it.
fn any_count(random: &mut Random, count: usize, bytes: usize) -> usize {
    match random.below(32) {
        0..=2 => random.below(bytes + 8),
        3 => random.choose(&[bytes, bytes + 1, usize::MAX - 4, usize::MAX]),
        _ => count,
    }
}

/// A few days around this one, up to what stays longest, and now and then another.
pub fn any_day(random: &mut Random, day: u32) -> u32 {
    match random.below(16) {
        0 => random.choose(&DAYS),
        1 => random.next_u64() as u32,
        2..=4 => day.saturating_add_signed(random.between(-100, 100) as i32),
        _ => day.saturating_add_signed(random.between(-8, 2) as i32),
    }
}

/// A kind and a body that fits it, but for one in eight times.
fn any_entry(random: &mut Random) -> (u32, Vec<u8>) {
    let (kind, length) = random.choose(&KINDS);
    let length = match random.one_in(16) {
        true => random.choose(&[0, 1, 2, 6, 2048, 2049, 2050, 2054]),
        false => length,
    };
    let body = (0..length).map(|_| random.byte()).collect();
    match random.one_in(16) {
        true => (random.choose(&NO_KINDS), body),
        false => (kind, body),
    }
}

/// The used bytes of a log of some entries, cut or changed in a byte or two, and bytes behind them.
pub fn damaged(random: &mut Random) -> (usize, Vec<u8>) {
    let mut log = Vec::new();
    for _ in 0..random.below(12) {
        let (kind, length) = random.choose(&KINDS);
        let body: Vec<u8> = (0..length).map(|_| random.choose(&[0, 5, 6, 7])).collect();
        log.extend(written(kind, any_day(random, 1000), &body));
    }
    let used = match random.one_in(3) {
        true => random.below(log.len() + 1),
        false => log.len(),
    };
    for _ in 0..random.below(3).min(log.len()) {
        let place = random.below(log.len());
        log[place] = random.choose(&[0, 4, 5, 6, 7, 8, 255]);
    }
    let behind = random.choose(&[0, 5, 6, 7, 2053, 2054]);
    log.extend((0..behind).map(|_| random.choose(&[5, 6, 7, 0xa5])));
    (used, log)
}
