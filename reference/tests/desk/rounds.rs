//! Rounds: what is granted, what is paid for, and what happens when a sector has nothing left.

use reference::area::AREA_WORDS;
use reference::desk::Desk;
use reference::job::Job;
use reference::matrix::REAL_SIZE;

use crate::common::desk::role::OPERATOR;
use crate::common::desk::{BothDesk, Call, Lent, Seen};
use crate::common::Case;
use crate::hub::{clear_record, full_record, Hub};
use crate::steps::{any_request, desk_of};

/// A desk with the same job for all, at which one sector has so much left, and the others have
/// something else.
fn desk_with(sector: usize, job: Job, left: u16, others: u16) -> Desk {
    let mut desk = desk_of(job, others);
    desk.seats[sector].left = left;
    desk
}

/// Every turn number with every rest of a count, on an area whose turns are all skipped: they are
/// granted and paid for like any other.
#[test]
fn the_smallest_of_three_is_granted() {
    let mut seen = Seen::default();
    let case = Case::of_words("grants", 1141, 0);
    let mut random = case.random();
    let mut both = BothDesk::new(case, &mut seen);
    let mut clear = [0; AREA_WORDS];
    (0..REAL_SIZE).for_each(|i| clear[33 * i] = 1);
    both.fill_area(0, &clear);
    for turn in 0..=120 {
        for left in (0..=121).chain([1_000, u16::MAX]) {
            let request = any_request(&mut random);
            let run = Call::Run { sector: 5, request };
            let others = random.choose(&[0, 1, 15, 120, u16::MAX]);
            let desk = desk_with(5, Job::new(turn, 0), left, others);
            let reply = both.call_handed(OPERATOR, &desk, &run, Lent::area(0));
            let refused = request > 0 && left == 0 && turn < 120;
            let number = if refused { 13 } else { 0 };
            both.require(reply.number == number, "another number");
            let smallest = u32::from(request.min(left)).min(120 - turn);
            both.require(reply.count == smallest, "another grant");
            let made = reply.desk.seats[5].job.made;
            both.require(made == 0, "a turn that is clear was made");
        }
    }
    seen.print("Every turn number and every rest of a count");
    seen.assert_numbers(&[13]);
}

/// With nothing left a sector's Run is refused where it would have made a turn, and nowhere else,
/// whatever the others have left.
#[test]
fn a_count_that_is_used_up() {
    let mut seen = Seen::default();
    let case = Case::of_words("used up", 1142, 0);
    let mut both = BothDesk::new(case, &mut seen);
    for (sector, others) in (0..8).flat_map(|sector| [0, 15, u16::MAX].map(|n| (sector, n))) {
        let mut run = |job, request, words| {
            let call = Call::Run { sector, request };
            let lent = Lent {
                words,
                ..Lent::area(2)
            };
            let desk = desk_with(sector as usize, job, 0, others);
            let reply = both.call_handed(OPERATOR, &desk, &call, lent);
            (reply.number, reply.count, reply.job)
        };
        let nothing = Job::new(0, 0);
        for job in [(0, 0), (1, 0), (5, 5), (119, 119)].map(|(turn, made)| Job { turn, made }) {
            assert_eq!(run(job, 0, 512), (0, 0, job), "a request of 0");
            for request in [1, 2, 119, 120, 121, u16::MAX] {
                assert_eq!(run(job, request, 512), (13, 0, nothing), "{job:?}");
                assert_eq!(run(job, request, 511), (3, 0, nothing), "a short area");
            }
        }
        for finished in [0, 1, 120].map(|made| Job::new(120, made)) {
            for request in [0, 1, 120, u16::MAX] {
                assert_eq!(run(finished, request, 512), (0, 0, finished));
            }
        }
        let no_job = Job::new(5, 6);
        assert_eq!(run(no_job, 1, 512), (5, 0, nothing), "5 comes before 13");
    }
    seen.print("A count that is used up");
    seen.assert_numbers(&[3, 5, 13]);
}

/// Fifteen turns for each of eight sectors, eight rounds long, as a new desk has it.
#[test]
fn eight_sectors_share_eight_rounds() {
    let mut seen = Seen::default();
    let mut hub = Hub::new("eight sectors", 1143, &mut seen);
    (0..8).for_each(|sector| hub.load(sector, full_record(1143 + u64::from(sector))));
    for round in 1..=8 {
        for sector in 0..8 {
            assert_eq!(hub.run(sector, 15), (0, 15));
            assert_eq!(hub.seat(sector as usize).job.turn, 15 * round);
        }
        assert_eq!(hub.left(), [0; 8]);
        for sector in 0..8 {
            let due = if round < 8 { (13, 0) } else { (0, 0) };
            assert_eq!(hub.run(sector, 1), due);
            assert_eq!(hub.fetch(sector), if round < 8 { 6 } else { 0 });
        }
        hub.begin();
        assert_eq!(hub.left(), [15; 8]);
    }
    seen.print("Eight sectors, eight rounds");
    assert_eq!((seen.granted, seen.worked), (960, 8));
}

/// A sector that asks first, and for all, gets its share. The last to ask has its own.
#[test]
fn a_busy_sector_eats_nothing_of_the_others() {
    let mut seen = Seen::default();
    let mut hub = Hub::new("a busy sector", 1144, &mut seen);
    (0..3).for_each(|sector| hub.load(sector, full_record(1144)));
    assert_eq!(hub.set_shares([119, 1, 0, 0, 0, 0, 0, 0]), 0);
    hub.begin();
    assert_eq!(hub.run(0, u16::MAX), (0, 119));
    assert_eq!((hub.run(0, 1), hub.run(2, 1)), ((13, 0), (13, 0)));
    assert_eq!(hub.run(1, u16::MAX), (0, 1));
    assert_eq!(hub.set_shares([1, 60, 59, 0, 0, 0, 0, 0]), 0);
    assert_eq!(hub.run(1, 1), (13, 0));
    hub.begin();
    assert_eq!(hub.run(0, u16::MAX), (0, 1));
    assert_eq!(hub.run(1, u16::MAX), (0, 60));
    hub.begin();
    assert_eq!((hub.run(0, 1), hub.seat(0).left), ((0, 0), 1));
    assert_eq!((hub.run(1, 60), hub.seat(1).left), ((0, 59), 1));
    assert_eq!((hub.run(2, 60), hub.seat(2).left), ((0, 59), 0));
    assert_eq!([0, 1, 2].map(|sector| hub.fetch(sector)), [0, 0, 6]);
    seen.print("A busy sector");
}

/// Neither a hand-in nor a Fetch that brings a matrix in takes from what its sector has left, or
/// refills it.
#[test]
fn a_matrix_that_comes_leaves_the_count_as_it_is() {
    let mut seen = Seen::default();
    let mut hub = Hub::new("counts and matrices", 1145, &mut seen);
    hub.load(3, clear_record());
    assert_eq!(hub.set_shares([0, 0, 0, 120, 0, 0, 0, 0]), 0);
    hub.begin();
    for (left, request) in [(120, 0), (90, 30), (81, 9), (0, 81)] {
        hub.run(3, request);
        for seed in 0..3 {
            assert_eq!(hub.left(), [0, 0, 0, left, 0, 0, 0, 0]);
            hub.keep(3, full_record(1145 + seed));
        }
    }
    assert_eq!((hub.fetch(3), hub.seat(3).job), (0, Job::new(0, 0)));
    assert_eq!(hub.left(), [0; 8]);
    assert_eq!(hub.run(3, 120), (13, 0));
    hub.begin();
    assert_eq!(hub.run(3, 120), (0, 120));
    assert_eq!((hub.fetch(3), hub.seat(3).left), (0, 0));
    assert_eq!(hub.set_shares([0, 0, 0, 20, 0, 0, 0, 0]), 0);
    hub.begin();
    hub.load(3, full_record(1145));
    assert_eq!((hub.seat(3).left, hub.run(3, 120)), (20, (0, 20)));
    seen.print("Counts and matrices");
}

/// A matrix that costs nothing uses up a share all the same.
#[test]
fn turns_that_are_skipped_are_paid_for() {
    let mut seen = Seen::default();
    let mut hub = Hub::new("skipped turns", 1146, &mut seen);
    hub.load(0, clear_record());
    assert_eq!(hub.set_shares([100, 0, 0, 0, 0, 0, 0, 0]), 0);
    hub.begin();
    assert_eq!((hub.run(0, 90), hub.seat(0).left), ((0, 90), 10));
    assert_eq!((hub.run(0, 90), hub.seat(0).left), ((0, 10), 0));
    assert_eq!(
        (hub.run(0, 1), hub.seat(0).job),
        ((13, 0), Job::new(100, 0))
    );
    hub.begin();
    assert_eq!((hub.run(0, 90), hub.seat(0).left), ((0, 20), 80));
    assert_eq!((hub.fetch(0), hub.seat(0).job), (0, Job::new(120, 0)));
    seen.print("Skipped turns");
}
