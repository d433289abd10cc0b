//! Desks that a host made up: every call takes them as they are.

use reference::desk::{Desk, Seat};
use reference::job::Job;
use reference::random::Random;
use reference::records::MATRIX_RECORD;

use crate::common::desk::{BothDesk, Seen};
use crate::common::words::{any_job, arbitrary_area};
use crate::common::Case;
use crate::steps::{good_record, Areas, Steps};

/// Cases of ten desks each, and histories.
const CASES: u64 = 1_500;
const HISTORIES: u64 = 600;

/// Any number, of one of many sizes.
fn any_number(random: &mut Random) -> u32 {
    random.word() as u32 >> random.below(32)
}

/// A share, or what a sector has left.
fn any_count(random: &mut Random) -> u16 {
    match random.below(4) {
        0 => random.choose(&[0, 0, 1, 119, 121, 0x7FFF, 0x8000, u16::MAX]),
        1 => random.below(121) as u16,
        _ => any_number(random) as u16,
    }
}

/// None, one, or what means one as well.
fn any_waits(random: &mut Random) -> u8 {
    match random.below(6) {
        0..=1 => 0,
        2..=3 => 1,
        4 => random.choose(&[2, 3, 127, 128, 254, 255]),
        _ => random.byte(),
    }
}

/// A record that was handed in, one that no hand-in accepts, or any bytes.
fn any_room(random: &mut Random) -> [u8; MATRIX_RECORD] {
    let mut room = std::array::from_fn(|_| random.byte());
    if !random.one_in(3) {
        room.copy_from_slice(&good_record(random));
    }
    match random.below(6) {
        0 => room[0] = random.byte(),
        1 => (0..8).for_each(|k| room[1 + 36 * k..][..2].copy_from_slice(&[0, 16])),
        2 => room[1..].fill(0),
        _ => {}
    }
    room
}

/// A job that exists, one next to it, or anything.
pub fn job_or_none(random: &mut Random) -> Job {
    let mut job = any_job(random);
    match random.below(6) {
        0 => job.made = job.turn + 1,
        1 => job.turn = random.choose(&[120, 121, 122, 128]),
        2 => job = Job::new(any_number(random), any_number(random)),
        3 => job.turn = 120,
        _ => {}
    }
    job
}

fn any_seat(random: &mut Random) -> Seat {
    Seat {
        job: job_or_none(random),
        heard: random.byte(),
        share: any_count(random),
        left: any_count(random),
        waits: any_waits(random),
        record: any_room(random),
    }
}

pub fn any_desk(random: &mut Random) -> Desk {
    Desk {
        seats: std::array::from_fn(|_| any_seat(random)),
    }
}

/// Calls of every kind, each handed a desk of its own, on areas of arbitrary words.
#[test]
fn desks_that_are_made_up_agree() {
    let mut seen = Seen::default();
    let steps = Steps {
        areas: Areas::Any,
        ..Steps::OF_ALL
    };
    for number in 0..CASES {
        let case = Case::of_words("made-up desks", 1161, number);
        let mut random = case.random();
        let mut both = BothDesk::new(case, &mut seen);
        both.fill_area(0, &arbitrary_area(&mut random));
        for _ in 0..10 {
            let mut step = steps.draw(&mut random);
            step.lent.area = random.choose(&[0, 1, 1, 1, 2]);
            both.fill_area(1, &[0; 512]);
            both.call_handed(step.role, &any_desk(&mut random), &step.call, step.lent);
        }
    }
    seen.print("Made-up desks");
    seen.assert_numbers(&[1, 2, 3, 4, 5, 6, 7, 8, 12, 13, 14, 15]);
    let brought_in = seen.matrices.brought_in;
    assert!(brought_in > CASES / 50, "few matrices were brought in");
}

/// Histories that begin with such a desk and go on with those that are answered. A seat with no job
/// stays so unless its turn number is above 120 and its sector is loaded, and shares may be far above
/// 120 until others are set.
#[test]
fn histories_from_desks_that_are_made_up_agree() {
    let mut seen = Seen::default();
    for number in 0..HISTORIES {
        let case = Case::of_words("made-up histories", 1162, number);
        let mut random = case.random();
        let areas = random.choose(&[Areas::Own, Areas::Any]);
        let steps = Steps::of_some(areas, &mut random);
        let mut both = BothDesk::new(case, &mut seen);
        (0..4).for_each(|area| both.fill_area(area, &[0; 512]));
        both.go_on_with(any_desk(&mut random));
        for _ in 0..40 {
            steps.draw(&mut random).make(&mut both);
        }
    }
    seen.print("Histories from made-up desks");
    seen.assert_numbers(&[1, 2, 3, 4, 5, 6, 7, 8, 12, 13, 14, 15]);
    let brought_in = seen.matrices.brought_in;
    assert!(brought_in > HISTORIES / 6, "few matrices were brought in");
}
