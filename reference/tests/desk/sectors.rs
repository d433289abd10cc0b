//! Every call for every sector, and for sectors that no hub has.

use reference::area::AREA_WORDS;
use reference::desk::{Desk, DeskReply, Seat, SECTORS};
use reference::job::Job;
use reference::random::Random;
use reference::records::MATRIX_RECORD;

use crate::common::desk::role::OPERATOR;
use crate::common::desk::{BothDesk, Call, Lent, Seen};
use crate::common::Case;
use crate::steps::{good_record, BEYOND};

/// A desk at which no seat is like another, and a matrix waits at every other one.
fn desk() -> Desk {
    let seat = |k: usize| Seat {
        job: Job::new(10 * k as u32 + 9, k as u32),
        heard: 1 << k,
        share: 22 - 2 * k as u16,
        left: 77 + k as u16,
        waits: k as u8 % 2,
        record: [k as u8 + 1; MATRIX_RECORD],
    };
    Desk {
        seats: std::array::from_fn(seat),
    }
}

/// Every call for a sector, each of them good but for that.
fn calls(sector: u32) -> [Call; 4] {
    let record = good_record(&mut Random::new(1132));
    [
        Call::HandIn { sector, record },
        Call::Run { sector, request: 1 },
        Call::Fetch { sector },
        Call::Heard { sector },
    ]
}

fn call_all(sector: u32, desk: &Desk, seen: &mut Seen) -> [DeskReply; 4] {
    let case = Case::of_words("sectors", 1131, sector.into());
    let mut both = BothDesk::new(case, seen);
    calls(sector).map(|call| {
        both.fill_area(0, &[0; AREA_WORDS]);
        both.call_handed(OPERATOR, desk, &call, Lent::area(0))
    })
}

/// The seats of a desk without that of a sector.
fn others(desk: &Desk, sector: usize) -> Vec<Seat> {
    let others = (0..SECTORS).filter(|other| *other != sector);
    others.map(|other| desk.seats[other]).collect()
}

/// A sector's calls change its own seat and no other.
#[test]
fn each_sector_has_its_own_seat() {
    let mut seen = Seen::default();
    for sector in 0..SECTORS {
        let desk = desk();
        let replies = call_all(sector as u32, &desk, &mut seen);
        assert_eq!(replies.map(|reply| reply.number), [0, 0, 6, 0]);
        let [hand_in, run, _, heard] = replies;
        assert_eq!(heard.heard, 1 << sector);
        for reply in [&hand_in, &run] {
            assert_eq!(others(&reply.desk, sector), others(&desk, sector));
        }
        let (before, seat) = (desk.seats[sector], hand_in.desk.seats[sector]);
        let stands = Seat {
            waits: 1,
            record: seat.record,
            ..before
        };
        assert_eq!(seat, stands);
        assert_ne!(seat.record, before.record);
        let seat = run.desk.seats[sector];
        let left = (before.job.turn + 1, before.left - 1);
        assert_eq!((seat.job.turn, seat.left), left);
    }
    seen.print("Every sector");
    seen.assert_numbers(&[6]);
}

/// What waits for a sector is brought in for that sector, and the matrices of all others wait on.
#[test]
fn each_sector_brings_in_its_own_matrix() {
    let mut seen = Seen::default();
    for sector in 0..SECTORS {
        let mut desk = desk();
        desk.seats.iter_mut().for_each(|seat| seat.waits = 1);
        desk.seats[sector].job = Job::new(120, 7);
        let fetch = call_all(sector as u32, &desk, &mut seen)[2];
        assert_eq!(fetch.number, 0);
        assert_eq!(others(&fetch.desk, sector), others(&desk, sector));
        desk.seats[sector].waits = 0;
        let stays = call_all(sector as u32, &desk, &mut seen)[2];
        assert_eq!((stays.number, stays.desk), (0, desk));
        (desk.seats[sector].job, desk.seats[sector].heard) = (Job::new(0, 0), 255);
        assert_eq!(fetch.desk, desk);
    }
    seen.print("Every sector brings in its own");
    seen.assert_numbers(&[]);
}

#[test]
fn there_is_no_sector_above_7() {
    let mut seen = Seen::default();
    for sector in [7].into_iter().chain(BEYOND) {
        let replies = call_all(sector, &desk(), &mut seen);
        let due = if sector == 7 { [0, 0, 6, 0] } else { [12; 4] };
        assert_eq!(replies.map(|reply| reply.number), due, "sector {sector}");
    }
    seen.print("Sectors above 7");
    seen.assert_numbers(&[6, 12]);
}
