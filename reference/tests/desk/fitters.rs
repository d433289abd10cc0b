//! A fitter's Fetch: it writes the result that the operator's would, brings nothing in, and may be
//! repeated until the operator's Fetch has brought in what waits.

use reference::area::AREA_WORDS;
use reference::desk::{Desk, Seat};
use reference::job::Job;

use crate::common::desk::role::{FITTER, OPERATOR, VIEWER};
use crate::common::desk::{BothDesk, Call, Lent, Seen};
use crate::common::Case;
use crate::hub::full_record;
use crate::sector::{heard as heard_of, Sector};
use crate::steps::good_record;

/// Fetches the result of a record by fitters, several times. Nothing changes.
fn fetch_by_fitters(sector: &mut Sector, record: &[u8]) {
    let desk = *sector.both.desk();
    for _ in 0..3 {
        sector.fetch_by(FITTER, record);
        let same = *sector.both.desk() == desk;
        sector.both.require(same, "a fitter changed the desk");
    }
}

/// A Fetch of the sector that answers a number.
fn refuse(sector: &mut Sector, role: u32, lent: Lent, number: u8) {
    let fetch = Call::Fetch {
        sector: sector.sector,
    };
    let desk = *sector.both.desk();
    sector.call_lent(role, &fetch, lent, number);
    let same = *sector.both.desk() == desk;
    sector
        .both
        .require(same, "a refused Fetch changed the desk");
}

/// Loads the first matrix, hands in the next one after so many turns, and works the first to its end.
fn work_with_next(sector: &mut Sector, records: &[Vec<u8>; 3], turn: u16) {
    let own = Lent::area(sector.sector as usize);
    sector.hand_in(&records[0]);
    sector.run(turn);
    assert!(sector.hand_in(&records[1]));
    refuse(sector, FITTER, own, 6);
    sector.run(120 - turn);
}

/// From any turn number on the next matrix waits, through all Fetches of fitters, until the operator
/// fetches the same result and brings it in. Then that of the next one is fetched by both, and the
/// one after it is loaded at once.
#[test]
fn what_waits_is_left_to_the_operator() {
    let mut seen = Seen::default();
    for turn in 0..=119 {
        let case = Case::of_words("fitters after every turn", 1211, turn);
        let (mut random, number) = (case.random(), turn as u32 % 8);
        let records: [Vec<u8>; 3] = std::array::from_fn(|_| good_record(&mut random));
        let own = Lent::area(number as usize);
        let mut sector = Sector::new(case, number, &mut seen);
        work_with_next(&mut sector, &records, turn as u16);
        fetch_by_fitters(&mut sector, &records[0]);
        refuse(&mut sector, VIEWER, own, 15);
        let Seat { waits, heard, .. } = sector.seat();
        assert_eq!((waits, heard), (1, heard_of(&records[0])));
        sector.fetch(&records[0]);
        let Seat { job, heard, .. } = sector.seat();
        assert_eq!((job, heard), (Job::new(0, 0), heard_of(&records[1])));
        refuse(&mut sector, FITTER, own, 6);
        sector.begin();
        sector.run(120);
        fetch_by_fitters(&mut sector, &records[1]);
        sector.fetch(&records[1]);
        fetch_by_fitters(&mut sector, &records[1]);
        assert!(!sector.hand_in(&records[2]));
    }
    seen.print("Fitters after every turn");
    seen.assert_numbers(&[6, 15]);
    let matrices = &seen.matrices;
    assert_eq!((matrices.fetched, matrices.fetched_brought_in), (240, 120));
    assert_eq!((matrices.left_waiting, matrices.brought_in), (360, 120));
    assert_eq!(matrices.fetched_by_fitters, 9 * 120);
}

/// Also while a fitter has fetched, the one that waits may be replaced: the last one comes in.
#[test]
fn of_several_matrices_behind_a_fitter_the_last_comes_in() {
    let mut seen = Seen::default();
    for sector in 0..8 {
        let case = Case::of_words("fitters and several matrices", 1212, sector.into());
        let records: Vec<Vec<u8>> = (0..4).map(|k| full_record(1212 + k)).collect();
        let mut sector = Sector::new(case, sector, &mut seen);
        sector.hand_in(&records[0]);
        sector.hand_in(&records[1]);
        sector.run(120);
        for next in &records[2..] {
            fetch_by_fitters(&mut sector, &records[0]);
            assert!(sector.hand_in(next));
        }
        fetch_by_fitters(&mut sector, &records[0]);
        sector.fetch(&records[0]);
        sector.begin();
        sector.run(120);
        fetch_by_fitters(&mut sector, &records[3]);
        sector.fetch(&records[3]);
    }
    seen.print("Fitters and several matrices");
    seen.assert_numbers(&[]);
    assert_eq!((seen.matrices.replaced, seen.matrices.brought_in), (16, 8));
}

/// With 3, 6, 7 or 8 like the operator, and what waits goes on waiting.
#[test]
fn a_fitter_is_refused_where_the_operator_is() {
    let mut seen = Seen::default();
    for number in 0..8 {
        let case = Case::of_words("refused fitters", 1213, number.into());
        let (first, next) = (full_record(1213), full_record(1214));
        let mut sector = Sector::new(case, number, &mut seen);
        let own = Lent::area(number as usize);
        let other = (number as usize + 1) % 8; // of random words
        sector.hand_in(&first);
        sector.hand_in(&next);
        sector.run(119);
        for role in [FITTER, OPERATOR] {
            refuse(&mut sector, role, own, 6);
        }
        sector.run(1);
        for role in [FITTER, OPERATOR] {
            refuse(&mut sector, role, Lent { words: 511, ..own }, 3);
            refuse(&mut sector, role, Lent { bytes: 2048, ..own }, 7);
            refuse(&mut sector, role, Lent { bytes: 0, ..own }, 7);
            refuse(&mut sector, role, Lent { area: other, ..own }, 8);
        }
        fetch_by_fitters(&mut sector, &first);
        sector.fetch(&first);
    }
    seen.print("Refused fitters");
    seen.assert_numbers(&[3, 6, 7, 8]);
    assert_eq!((seen.matrices.fetched, seen.matrices.brought_in), (8, 8));
}

/// Every value above 0 means that one waits, and after a fitter's Fetch every value is as it was,
/// whatever the bytes of the record are.
#[test]
fn whatever_waits_is_left_by_a_fitter() {
    let mut seen = Seen::default();
    let mut both = BothDesk::new(
        Case::of_words("made-up records, fitters", 1215, 0),
        &mut seen,
    );
    both.fill_area(3, &[0; AREA_WORDS]);
    let fetch = Call::Fetch { sector: 6 };
    for (waits, kind) in (0..=255).flat_map(|waits| [0, 1, 2, 255].map(|kind| (waits, kind))) {
        for record in [full_record(1215), vec![0; 257], vec![0xFF; 257]] {
            let mut desk = Desk::NEW;
            let seat = &mut desk.seats[6];
            (seat.waits, seat.heard) = (waits, 0xA5);
            seat.record.copy_from_slice(&record);
            seat.record[0] = kind;
            let reply = both.call_handed(FITTER, &desk, &fetch, Lent::area(3));
            assert_eq!((reply.number, reply.desk), (0, desk));
            both.require(both.words(3)[..512] == [0; 512], "an area changed");
        }
    }
    seen.print("Made-up records, fitters");
    assert_eq!(
        (seen.matrices.left_waiting, seen.matrices.brought_in),
        (255 * 12, 0)
    );
}
