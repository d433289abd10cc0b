//! Random calls of a history: entries of all kinds and days, sweeps as days go by, and calls that are
//! refused.

use reference::log::EntryKind;
use reference::random::Random;

use crate::book::Book;
use crate::common::log::Call;
use crate::logs::entry;

/// Days to begin with, at both ends and around those that have another sign.
const FIRST_DAYS: [u32; 8] = [
    0,
    3,
    100,
    20_000,
    65_500,
    (1 << 31) - 40,
    u32::MAX - 200,
    u32::MAX - 20,
];

/// Numbers that are no kind. The low bits of some are those of one.
const NO_KINDS: [u32; 8] = [0, 1, 2, 4, 8, 256 + 5, 65_536 + 7, u32::MAX];

pub struct Steps {
    today: u32,
    /// The most days that pass between two calls.
    pace: usize,
    /// One in so many entries is a result, and one in so many calls a sweep.
    results: usize,
    sweeps: usize,
}

impl Steps {
    pub fn of_some(random: &mut Random) -> Self {
        Steps {
            today: random.choose(&FIRST_DAYS),
            pace: random.choose(&[1, 2, 5, 20, 60]),
            results: random.choose(&[1, 2, 4, 20]),
            sweeps: random.choose(&[2, 5, 10]),
        }
    }

    pub fn next(&mut self, book: &Book, random: &mut Random) -> Call {
        let passed = random.below(self.pace + 1) as u32;
        self.today = self.today.saturating_add(passed);
        let used = match random.below(12) {
            0 => book.broken_count(random),
            _ => book.used(),
        };
        if random.one_in(self.sweeps) {
            let day = self.day(random);
            Call::Sweep { day, used }
        } else {
            self.add(book, used, random)
        }
    }

    /// Today mostly, some days ago or ahead, or any day.
    fn day(&self, random: &mut Random) -> u32 {
        match random.below(20) {
            0 => random.word() as u32,
            1..=4 => self.today.saturating_sub(random.below(100) as u32),
            5 | 6 => self.today.saturating_add(random.below(100) as u32),
            _ => self.today,
        }
    }

    fn add(&self, book: &Book, used: usize, random: &mut Random) -> Call {
        if let Some(last) = book.last().filter(|_| random.one_in(12)) {
            return Call::add(last, used);
        }
        let kind = if random.one_in(self.results) {
            EntryKind::Result
        } else {
            random.choose(&[EntryKind::Refusal, EntryKind::Heard])
        };
        let Call::Add {
            mut kind,
            day,
            mut body,
            used,
        } = Call::add(&entry(kind, self.day(random), random), used)
        else {
            unreachable!("an entry is added");
        };
        if random.one_in(14) {
            kind = random.choose(&NO_KINDS);
        }
        if random.one_in(14) {
            let length = random.choose(&[0, 1, 2, 257, 2_048, 2_049, 2_050]);
            body.resize_with(length, || random.byte());
        }
        Call::Add {
            kind,
            day,
            body,
            used,
        }
    }
}
