//! A matrix that comes early: it waits, gives way to a later one, and is brought in by the operator's
//! Fetch of the one before. One after the other, each result is that of the matrix its job was loaded
//! from. All calls are the operator's.

use reference::desk::Desk;
use reference::job::Job;

use crate::common::desk::role::OPERATOR;
use crate::common::desk::{BothDesk, Call, Lent, Seen};
use crate::common::Case;
use crate::hub::{clear_record, full_record};
use crate::sector::{heard, Sector};
use crate::steps::good_record;

/// From any turn number on, the next matrix changes nothing of the one before. It comes in with the
/// Fetch, is right, and so is the one that is loaded at once after the last Fetch of all.
#[test]
fn a_matrix_may_come_after_any_turn() {
    let mut seen = Seen::default();
    for turn in 0..=119 {
        let case = Case::of_words("a matrix after every turn", 1191, turn);
        let mut random = case.random();
        let records: [Vec<u8>; 3] = std::array::from_fn(|_| good_record(&mut random));
        let mut sector = Sector::new(case, turn as u32 % 8, &mut seen);
        assert!(!sector.hand_in(&records[0]));
        sector.run(turn as u16);
        assert!(sector.hand_in(&records[1]));
        assert_eq!(sector.seat().heard, heard(&records[0]));
        sector.run(120 - turn as u16);
        sector.fetch(&records[0]);
        assert_eq!(sector.seat().job, Job::new(0, 0));
        assert_eq!(sector.seat().heard, heard(&records[1]));
        sector.begin();
        sector.run(120);
        for _ in 0..3 {
            sector.fetch(&records[1]);
        }
        assert!(!sector.hand_in(&records[2]));
        sector.begin();
        sector.run(120);
        sector.fetch(&records[2]);
    }
    seen.print("A matrix after every turn");
    seen.assert_numbers(&[]);
    let matrices = &seen.matrices;
    let fetched = (matrices.fetched, matrices.fetched_brought_in);
    assert_eq!((fetched, matrices.fetched_again), ((360, 120), 240));
}

/// Before the first turn, between two and after the last. Of many the last comes in, also when the
/// work was done before it came.
#[test]
fn of_several_matrices_the_last_comes_in() {
    let mut seen = Seen::default();
    for sector in 0..8 {
        let case = Case::of_words("several matrices", 1192, sector.into());
        let records: Vec<Vec<u8>> = (0..9).map(|k| full_record(1192 + k)).collect();
        let mut sector = Sector::new(case, sector, &mut seen);
        assert!(!sector.hand_in(&records[0]));
        for (k, turns) in [(1, 0), (2, 0), (3, 60), (4, 59), (5, 1), (6, 0)] {
            sector.run(turns);
            assert!(sector.hand_in(&records[k]));
        }
        sector.fetch(&records[0]);
        assert_eq!(sector.seat().waits, 0);
        assert!(sector.hand_in(&records[7]));
        assert!(sector.hand_in(&records[8]));
        sector.begin();
        sector.run(120);
        sector.fetch(&records[6]);
        sector.begin();
        sector.run(120);
        sector.fetch(&records[8]);
        sector.fetch(&records[8]);
    }
    seen.print("Several matrices");
    seen.assert_numbers(&[]);
    assert_eq!((seen.matrices.replaced, seen.matrices.brought_in), (48, 16));
}

/// Hands in records that are refused, with 1, 2, 3 and 4. None changes anything.
fn refuse_all(sector: &mut Sector, record: &[u8]) {
    let (kept, own) = (*sector.both.desk(), Lent::area(sector.sector as usize));
    let mut unheard = record.to_vec();
    (0..8).for_each(|k| unheard[1 + 36 * k..][..2].copy_from_slice(&[0, 16]));
    let cases = [
        (vec![], 512, 1),
        ([&[2], &record[1..]].concat(), 512, 1),
        (record[..256].to_vec(), 512, 2),
        (record.to_vec(), 511, 3),
        (unheard, 512, 4),
    ];
    for (record, words, number) in cases {
        let call = Call::HandIn {
            sector: sector.sector,
            record,
        };
        sector.call_lent(OPERATOR, &call, Lent { words, ..own }, number);
        assert_eq!(*sector.both.desk(), kept);
    }
}

/// One that is refused leaves the one that waits, which comes in later.
#[test]
fn a_refused_matrix_replaces_none() {
    let mut seen = Seen::default();
    for sector in 0..8 {
        let case = Case::of_words("refused matrices", 1193, sector.into());
        let [first, next, other] = [1193, 1194, 1195].map(full_record);
        let mut sector = Sector::new(case, sector, &mut seen);
        refuse_all(&mut sector, &other);
        sector.hand_in(&first);
        refuse_all(&mut sector, &other);
        assert!(sector.hand_in(&next));
        refuse_all(&mut sector, &other);
        sector.run(120);
        refuse_all(&mut sector, &other);
        sector.fetch(&first);
        sector.begin();
        sector.run(120);
        sector.fetch(&next);
    }
    seen.print("Refused matrices");
    seen.assert_numbers(&[1, 2, 3, 4]);
}

/// A Fetch that is refused, with 3, 6, 7 or 8, brings nothing in. 5 is for desks that were made up.
#[test]
fn a_refused_fetch_brings_nothing_in() {
    let mut seen = Seen::default();
    for number in 0..8 {
        let case = Case::of_words("refused Fetches", 1195, number.into());
        let (first, next) = (full_record(1196), full_record(1197));
        let mut sector = Sector::new(case, number, &mut seen);
        let (fetch, own) = (Call::Fetch { sector: number }, Lent::area(number as usize));
        let other = (number as usize + 1) % 8;
        let refuse = |sector: &mut Sector, lent: Lent, due| {
            let kept = *sector.both.desk();
            sector.call_lent(OPERATOR, &fetch, lent, due);
            assert_eq!(*sector.both.desk(), kept);
        };
        sector.hand_in(&first);
        sector.hand_in(&next);
        sector.run(119);
        refuse(&mut sector, own, 6);
        sector.run(1);
        refuse(&mut sector, Lent { words: 511, ..own }, 3);
        refuse(&mut sector, Lent { bytes: 2048, ..own }, 7);
        refuse(&mut sector, Lent { bytes: 0, ..own }, 7);
        refuse(&mut sector, Lent { area: other, ..own }, 8); // random words
        sector.fetch(&first);
        refuse(&mut sector, own, 6);
        sector.begin();
        sector.run(120);
        sector.fetch(&next);
    }
    seen.print("Refused Fetches");
    seen.assert_numbers(&[3, 6, 7, 8]);
    assert_eq!((seen.matrices.fetched, seen.matrices.brought_in), (16, 8));
}

/// Two sectors with half of the round each.
struct Pair<'a> {
    both: BothDesk<'a>,
}

impl Pair<'_> {
    fn call(&mut self, call: Call, area: usize) {
        let reply = self.both.call(OPERATOR, &call, Lent::area(area));
        self.both.require(reply.number == 0, "refused");
    }

    fn hand_in(&mut self, sector: u32, record: &[u8], area: usize) {
        let record = record.to_vec();
        self.call(Call::HandIn { sector, record }, area);
    }

    /// Works the jobs of both to the end, each in its area.
    fn work(&mut self, areas: [usize; 2]) {
        for (sector, area) in [0, 1, 0, 1].into_iter().zip([areas, areas].concat()) {
            self.call(Call::Begin, 0);
            let request = 60;
            self.call(Call::Run { sector, request }, area);
        }
    }

    /// Fetches the result of a record.
    fn fetch(&mut self, sector: u32, area: usize, record: &[u8]) {
        self.call(Call::Fetch { sector }, area);
        self.both.require_result_of(record);
    }
}

/// What is fetched, and where the next matrix is brought in, go by the area that the Fetch is lent. A
/// hand-in that waits touches none.
#[test]
fn the_areas_of_two_sectors_are_swapped() {
    let mut seen = Seen::default();
    let records = [1198, 1199, 1200, 1201].map(full_record);
    let case = Case::of_words("swapped areas", 1198, 0);
    let both = BothDesk::new(case, &mut seen);
    let mut pair = Pair { both };
    let shares = [60, 60, 0, 0, 0, 0, 0, 0];
    pair.call(Call::SetShares { shares }, 0);
    pair.hand_in(0, &records[0], 0);
    pair.hand_in(1, &records[1], 1);
    pair.hand_in(0, &records[2], 1);
    pair.hand_in(1, &records[3], 0);
    pair.work([0, 1]);
    pair.fetch(0, 1, &records[1]);
    pair.fetch(1, 0, &records[0]);
    pair.work([1, 0]);
    pair.fetch(0, 1, &records[2]);
    pair.fetch(1, 0, &records[3]);
    seen.print("Swapped areas");
    assert_eq!((seen.matrices.brought_in, seen.matrices.fetched), (2, 2));
}

/// Every value above 0 means that one waits. What is brought in is not tested: not its kind byte, and
/// not whether an antenna is heard.
#[test]
fn whatever_waits_is_brought_in() {
    let mut seen = Seen::default();
    let mut both = BothDesk::new(Case::of_words("made-up records", 1199, 0), &mut seen);
    let fetch = Call::Fetch { sector: 6 };
    for (waits, kind) in (0..=255).flat_map(|waits| [0, 1, 2, 255].map(|kind| (waits, kind))) {
        for record in [
            clear_record(),
            full_record(1199),
            vec![0; 257],
            vec![0xFF; 257],
        ] {
            let mut desk = Desk::NEW;
            let seat = &mut desk.seats[6];
            (seat.waits, seat.heard) = (waits, 0xA5);
            seat.record.copy_from_slice(&record);
            seat.record[0] = kind;
            both.fill_area(3, &[0; 512]);
            let reply = both.call_handed(OPERATOR, &desk, &fetch, Lent::area(3));
            let seat = reply.desk.seats[6];
            assert_eq!((reply.number, seat.waits), (0, 0));
            let filled = both.words(3)[..512] != [0; 512];
            assert_eq!((seat.job.turn == 0, filled), (waits > 0, waits > 0));
            assert_eq!(seat.heard == 0xA5, waits == 0);
        }
    }
    seen.print("Made-up records");
    assert_eq!(seen.matrices.brought_in, 255 * 16);
}

/// With a job beyond the last turn a sector is loaded again. Behind one that has more turns made than
/// its turn number the matrix waits for ever.
#[test]
fn a_job_that_is_none_is_left_by_a_load_alone() {
    let mut seen = Seen::default();
    for (turn, made, number) in [
        (121, 0, 0),
        (256, 5, 0),
        (u32::MAX, 0, 0),
        (5, 6, 5),
        (119, 200, 5),
    ] {
        let case = Case::of_words("jobs that are none", 1200, turn.into());
        let mut both = BothDesk::new(case, &mut seen);
        let mut desk = Desk::NEW;
        (desk.seats[2].job, desk.seats[2].left) = (Job { turn, made }, 120);
        both.go_on_with(desk);
        let (sector, request, record) = (2, 120, full_record(1200));
        let calls = [
            Call::HandIn { sector, record },
            Call::Run { sector, request },
            Call::Fetch { sector },
        ];
        let numbers = calls.map(|call| both.call(OPERATOR, &call, Lent::area(2)).number);
        assert_eq!(numbers, [0, number, number]);
        assert_eq!(both.desk().seats[2].waits, number / 5);
    }
    seen.print("Jobs that are none");
    seen.assert_numbers(&[5]);
}
