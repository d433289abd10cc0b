//! Histories of adds and sweeps from used count 0 on, in buffers of all sizes, each handed the used
//! count that the last accepted call answered, or one that is refused. Between them a host writes what
//! it likes behind the used bytes.

use reference::log::EntryKind;
use reference::random::Random;

use crate::book::Book;
use crate::common::log::{BothLog, Call, Made, Seen};
use crate::common::Case;
use crate::logs::entry;
use crate::rules::{Others, Rule};
use crate::steps::Steps;

const HISTORIES: u64 = 6_000;

/// In one of so many histories the calls are held against other rules, too.
const LOOKED_AT: u64 = 6;

/// How often other rules would have come to something else.
struct Noticed {
    room: Others<{ Rule::OF_ROOM.len() }>,
    adding: Others<{ Rule::OF_ADDING.len() }>,
    days: Others<{ Rule::OF_DAYS.len() }>,
    sweeping: Others<{ Rule::OF_SWEEPING.len() }>,
}

impl Noticed {
    const NONE: Noticed = Noticed {
        room: Others::of(Rule::OF_ROOM),
        adding: Others::of(Rule::OF_ADDING),
        days: Others::of(Rule::OF_DAYS),
        sweeping: Others::of(Rule::OF_SWEEPING),
    };

    fn look(&mut self, made: &Made) {
        if matches!(made.call, Call::Sweep { .. }) {
            self.days.look(made);
            self.sweeping.look(made);
        } else {
            self.room.look(made);
            self.adding.look(made);
        }
    }

    fn print_and_require_all_rules(&self, test: &str) {
        self.room.print_and_require_all_rules(test);
        self.adding.print_and_require_all_rules(test);
        self.days.print_and_require_all_rules(test);
        self.sweeping.print_and_require_all_rules(test);
    }
}

/// Bytes of a buffer: none or a few, those that a run of entries fills exactly, or up to 20,000.
fn size(random: &mut Random) -> usize {
    match random.below(6) {
        0 => random.below(20),
        1 => random.below(200),
        2 => 6 * random.below(30),
        3 => 2_054 * random.below(4) + 6 * random.below(8),
        4 => 2_000 + random.below(5_000),
        _ => random.below(20_001),
    }
}

#[test]
fn the_used_bytes_hold_what_was_accepted_and_not_swept() {
    let (mut seen, mut noticed) = (Seen::default(), Noticed::NONE);
    let (mut dropped, mut again) = (0, 0);
    for number in 0..HISTORIES {
        let case = Case::of_words("histories", 1601, number);
        let mut random = case.random();
        let mut book = Book::new(size(&mut random));
        let mut log = BothLog::new(case, book.room());
        let mut steps = Steps::of_some(&mut random);
        for step in 0..random.between(20, 90) {
            if step % 4 == 3 {
                log.write_behind(book.used());
            }
            let made = seen.make(&mut log, steps.next(&book, &mut random));
            book.enter(&log, &made);
            book.require_read_back(&mut log, &mut seen);
            if number % LOOKED_AT == 0 {
                noticed.look(&made);
            }
        }
        dropped += book.dropped;
        again += book.again;
    }
    seen.print(&format!("{HISTORIES} histories"));
    println!("{dropped} entries dropped, {again} added where others had stood");
    noticed.print_and_require_all_rules("histories");
    seen.assert_numbers(&[1, 2, 16, 17]);
    assert!(dropped > 5 * HISTORIES, "few were dropped");
    assert!(again > HISTORIES, "little was used again");
}

/// Some entries a day for more than two years in one buffer, which is swept every day, or every week.
#[test]
fn years_in_one_buffer() {
    let mut seen = Seen::default();
    let (mut dropped, mut again) = (0, 0);
    for (number, (room, weekly)) in [(9_000, false), (20_000, true)].into_iter().enumerate() {
        let case = Case::of_words("years", 1602, number as u64);
        let mut random = case.random();
        let mut book = Book::new(room);
        let mut log = BothLog::new(case, room);
        for day in 20_000..20_900 {
            for _ in 0..random.below(8) {
                let kind = match random.below(16) {
                    0 => EntryKind::Result,
                    _ => random.choose(&EntryKind::ALL[1..]),
                };
                let entry = entry(kind, day, &mut random);
                let made = seen.make(&mut log, Call::add(&entry, book.used()));
                book.enter(&log, &made);
            }
            if !weekly || day % 7 == 0 {
                let used = book.used();
                let made = seen.make(&mut log, Call::Sweep { day, used });
                book.enter(&log, &made);
                book.require_read_back(&mut log, &mut seen);
            }
        }
        dropped += book.dropped;
        again += book.again;
    }
    seen.print("900 days in one buffer, twice");
    println!("{dropped} entries dropped, {again} added where others had stood");
    seen.assert_numbers(&[17]);
    assert!(dropped > 4_000 && again > 4_000, "{dropped}, {again}");
}
