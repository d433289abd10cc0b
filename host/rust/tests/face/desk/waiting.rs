//! Matrices that come early: they wait in the desk, and the operator's Fetch brings them in.
use super::raw::{self, OPERATOR};
use super::{busy, made_up, only, record_of, refused, room, Hub};
use crate::lent::{at, equal_parts, mixed_matrix, Lent, MIXED_HEARD};
use hubqr::Refusal::*;
use hubqr::Role::{Operator, Viewer};
use hubqr::{ffi, Desk, Job, AREA_WORDS, RESULT_RECORD_BYTES, SECTORS};

/// A hub whose sector has all turns of the round.
fn hub_for(sector: usize) -> Hub {
    let mut hub = Hub::new();
    hub.set_shares(only(sector, 120));
    hub.begin();
    hub
}

/// A desk for which a record waits behind a finished job of a sector, with this in `waits`.
fn waiting(sector: usize, waits: u8, record: &[u8]) -> Desk {
    let mut desk = busy();
    (desk.jobs[sector], desk.waits[sector]) = (at(120, 7), waits);
    room(&mut desk, sector).copy_from_slice(record);
    desk
}

/// From every turn number on. The heard byte changes with the Fetch and not before.
#[test]
fn a_matrix_may_come_before_the_last_is_worked() {
    let (first, next) = (record_of(4), mixed_matrix());
    for turn in 0..120 {
        let sector = usize::from(turn % 8);
        let mut hub = hub_for(sector);
        hub.load(sector, &first);
        hub.run(sector, turn, turn);
        hub.keep(sector, &next);
        hub.run(sector, u16::MAX, 120 - turn);
        assert_eq!(hub.desk.heard(Viewer, sector as u32), Ok(0b0001_1111));
        hub.fetch(sector, &first);
        assert_eq!(hub.desk.jobs[sector], at(0, 0));
        assert_eq!(hub.desk.heard(Viewer, sector as u32), Ok(MIXED_HEARD));
        hub.begin();
        hub.run(sector, 120, 120);
        hub.fetch(sector, &next);
    }
}

/// Also with the job finished: only where none waits is it loaded at once.
#[test]
fn a_later_matrix_takes_the_place_of_the_one_that_waits() {
    for sector in 0..SECTORS {
        let records: [Vec<u8>; SECTORS] = std::array::from_fn(record_of);
        let mut hub = hub_for(sector);
        hub.load(sector, &records[0]);
        hub.keep(sector, &records[1]);
        hub.run(sector, 119, 119);
        hub.keep(sector, &records[2]);
        hub.run(sector, 1, 1);
        hub.keep(sector, &records[3]);
        hub.keep(sector, &records[4]);
        hub.fetch(sector, &records[0]);
        hub.begin();
        hub.run(sector, 120, 120);
        hub.fetch(sector, &records[4]);
        hub.load(sector, &records[5]);
        hub.begin();
        hub.run(sector, 120, 120);
        hub.fetch(sector, &records[5]);
    }
}

/// A result need not be fetched: a matrix that comes when the work is done is loaded in its place.
#[test]
fn a_fetch_may_be_repeated_until_the_next_load() {
    for sector in 0..SECTORS {
        let (first, next) = (record_of(6), record_of(2));
        let mut hub = hub_for(sector);
        hub.load(sector, &first);
        hub.run(sector, 120, 120);
        for _ in 0..3 {
            hub.fetch(sector, &first);
            hub.run(sector, u16::MAX, 0);
        }
        hub.load(sector, &next);
        hub.used_up(sector, 1);
        hub.begin();
        hub.run(sector, 120, 120);
        hub.load(sector, &first);
        assert_eq!(hub.desk.waits[sector], 0);
    }
}

/// Neither a matrix that comes nor one that is brought in pays or refills: the sector has used up all
/// that it has until the next round, and then has its share.
#[test]
fn matrices_leave_the_count() {
    for sector in 0..SECTORS {
        let (first, next) = (record_of(7), record_of(3));
        let mut hub = hub_for(sector);
        hub.load(sector, &first);
        hub.run(sector, 120, 120);
        hub.load(sector, &next);
        hub.used_up(sector, 1);
        hub.set_shares(only(sector, 70));
        hub.begin();
        hub.run(sector, 70, 70);
        hub.keep(sector, &first);
        hub.used_up(sector, 1);
        hub.begin();
        hub.run(sector, 70, 50);
        hub.fetch(sector, &next);
        assert_eq!(hub.desk.left, only(sector, 20));
        hub.run(sector, 70, 20);
        hub.used_up(sector, 1);
    }
}

/// It waits on, and comes in later.
#[test]
fn a_refused_matrix_takes_no_place() {
    let (first, next, hum) = (record_of(5), mixed_matrix(), equal_parts(16));
    for sector in 0..SECTORS {
        let mut hub = hub_for(sector);
        hub.load(sector, &first);
        hub.keep(sector, &next);
        for turns in [0, 120] {
            hub.run(sector, turns, turns);
            let refuse = |record: &[u8], words: usize, with| {
                let hand_in = |d: &mut Desk, l: &mut Lent| {
                    d.hand_in(Operator, sector as u32, record, &mut l.area[..words])
                };
                refused(&hub.desk, hand_in, with);
            };
            refuse(&[], 512, WrongKind);
            refuse(&first[..256], 512, WrongLength);
            refuse(&first, 511, AreaTooShort);
            refuse(&hum, 512, NoneHeard);
        }
        hub.fetch(sector, &first);
        hub.begin();
        hub.run(sector, 120, 120);
        hub.fetch(sector, &next);
    }
}

/// Whichever test fails, the area, the desk and what waits stay.
#[test]
fn a_refused_fetch_brings_nothing_in() {
    let next = mixed_matrix();
    for sector in 0..SECTORS {
        let refuse = |job: Job, words: usize, bytes: usize, with| {
            let mut desk = waiting(sector, 1, &next);
            desk.jobs[sector] = job;
            let fetch = |d: &mut Desk, l: &mut Lent| {
                let (area, buffer) = (&mut l.area[..words], &mut l.buffer[..bytes]);
                d.fetch(Operator, sector as u32, area, buffer)
            };
            refused(&desk, fetch, with);
        };
        refuse(at(120, 7), 511, 2049, AreaTooShort);
        refuse(at(121, 7), 512, 2049, NoSuchJob);
        refuse(at(119, 7), 512, 2049, Unfinished);
        refuse(at(120, 7), 512, 2048, BufferTooShort);
        refuse(at(120, 7), 512, 2049, NotTriangular);
    }
}

/// It is filled, and the area of the job before stays as it is.
#[test]
fn a_matrix_is_brought_into_the_area_that_the_fetch_is_lent() {
    let (first, next) = (record_of(1), mixed_matrix());
    for sector in 0..SECTORS as u32 {
        let mut hub = hub_for(sector as usize);
        hub.load(sector as usize, &first);
        hub.keep(sector as usize, &next);
        hub.run(sector as usize, 120, 120);
        let (mut lent, mut loaded) = (Lent::new(), Lent::new());
        lent.area[..AREA_WORDS].copy_from_slice(&hub.lent[sector as usize].area[..AREA_WORDS]);
        hubqr::load(&next, &mut loaded.area).unwrap();
        let (area, buffer) = (&mut lent.area, &mut lent.buffer);
        let fetched = hub.desk.fetch(Operator, sector, area, buffer);
        assert_eq!((fetched, lent.area), (Ok(()), loaded.area));
        assert_eq!(hub.lent[sector as usize], hub.alone[sector as usize]);
    }
}

/// One waits whatever number above 0 says so, and is not tested again: not its kind byte, and not
/// whether an antenna is heard.
#[test]
fn whatever_waits_in_a_made_up_desk_is_brought_in() {
    for (waits, sector) in (1..=u8::MAX).map(|waits| (waits, usize::from(waits % 8))) {
        for (kind, part, heard) in [(1, 17, 0xff), (0, 17, 0xff), (3, 16, 0), (2, -1, 0)] {
            let (mut record, mut area) = (equal_parts(part), [0; AREA_WORDS]);
            record[0] = kind;
            let mut desk = waiting(sector, waits, &record);
            let mut after = desk.clone();
            (after.jobs[sector], after.waits[sector]) = (at(0, 0), 0);
            after.heard[sector] = heard;
            let buffer = &mut [0; RESULT_RECORD_BYTES];
            let fetched = desk.fetch(Operator, sector as u32, &mut area, buffer);
            assert_eq!((fetched, &desk), (Ok(()), &after));
            assert_eq!(
                (area[0], area[8]),
                (8192 * i32::from(part), -8192 * i32::from(part))
            );
            assert_eq!((area[16], area[17]), (hubqr::Q_ONE, 0));
        }
    }
}

/// A hand-in makes 1 of it. What no call changes keeps its number.
#[test]
fn a_number_above_1_means_that_one_waits() {
    let next = mixed_matrix();
    for waits in [2, 3, 128, 255] {
        let mut hub = Hub::new();
        hub.desk = waiting(3, waits, &next);
        hub.desk.waits[6] = waits;
        hub.begin();
        hub.run(3, 9, 0);
        hub.keep(3, &record_of(3));
        assert_eq!((hub.desk.waits[3], hub.desk.waits[6]), (1, waits));
    }
}

/// A turn number above 120 has nothing to do. A job with more made than its turn number is neither
/// finished nor ever will be.
#[test]
fn hand_ins_behind_jobs_that_are_none() {
    for (turn, made) in [(121, 0), (200, 300), (u32::MAX, u32::MAX)] {
        let mut hub = Hub::new();
        hub.desk = made_up();
        hub.desk.jobs[4] = at(turn, made);
        hub.load(4, &mixed_matrix());
        hub.run(4, 120, 120);
        hub.fetch(4, &mixed_matrix());
    }
    for (turn, made) in [(0, 1), (5, 6), (119, u32::MAX)] {
        let mut hub = Hub::new();
        hub.desk = made_up();
        hub.desk.jobs[4] = at(turn, made);
        hub.keep(4, &mixed_matrix());
        hub.keep(4, &record_of(4));
        let run = |d: &mut Desk, l: &mut Lent| d.run(Operator, 4, 1, &mut l.area);
        refused(&hub.desk, run, NoSuchJob);
        let fetch = |d: &mut Desk, l: &mut Lent| d.fetch(Operator, 4, &mut l.area, &mut l.buffer);
        refused(&hub.desk, fetch, NoSuchJob);
        (hub.desk.jobs[4], hub.desk.waits[4]) = (at(120, 0), 0); // the host mends it
        hub.load(4, &record_of(4));
    }
}

/// The archive's reply to a hand-in that waits has the job and the heard byte as they stand, for a
/// sector with any of them.
#[test]
fn a_hand_in_that_waits_answers_what_stands() {
    let (record, mut area) = (mixed_matrix(), [7; AREA_WORDS]);
    for sector in 1..SECTORS {
        let mut due = busy();
        (due.jobs[sector], due.heard[sector]) = (at(33, 100), 0);
        let reply = raw::hand_in(OPERATOR, &due, sector as u32, &record, &mut area);
        due.waits[sector] = 1;
        room(&mut due, sector).copy_from_slice(&record);
        let due = ffi::DeskLoadReply {
            desk: due,
            number: 0,
            heard: 0,
            job: at(33, 100),
        };
        assert_eq!((reply, area), (due, [7; AREA_WORDS]));
    }
}
