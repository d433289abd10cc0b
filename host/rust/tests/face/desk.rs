//! The desk: each sector beside the engine's own calls on another area, what its share grants it, and
//! refusals. Where nothing else is said, the operator calls.
mod raw;
mod roles;
mod waiting;

use crate::job::element;
use crate::lent::{at, equal_parts, matrix, mixed_matrix, Lent};
use hubqr::Refusal::{self, *};
use hubqr::Role::{self, Fitter, Operator, Viewer};
use hubqr::{ffi, Desk, Job, AREA_WORDS, KIND_RESULT, MATRIX_RECORD_BYTES, RESULT_RECORD_BYTES};
use hubqr::{FIRST_SHARE, ROUND_TURNS, SECTORS};
use raw::OPERATOR;
use std::mem::{align_of, offset_of, size_of};

/// Numbers of no sector. Cut to a byte, to 16 bits or to its last three bits, each would be one.
const NO_SECTORS: [u32; 10] = [
    8,
    9,
    255,
    256,
    263,
    65_535,
    65_536,
    65_543,
    1 << 31,
    u32::MAX,
];

/// Shares of which all but one are 0.
fn only(sector: usize, share: u16) -> [u16; SECTORS] {
    let mut shares = [0; SECTORS];
    shares[sector] = share;
    shares
}

/// A desk, and for each sector what it lends and the same of a sector that is worked alone.
struct Hub {
    desk: Desk,
    lent: [Lent; SECTORS],
    alone: [Lent; SECTORS],
}

impl Hub {
    fn new() -> Hub {
        Hub {
            desk: Desk::new(),
            lent: std::array::from_fn(|_| Lent::new()),
            alone: std::array::from_fn(|_| Lent::new()),
        }
    }

    /// Hands in a record that is loaded: nothing of the desk changes but the sector's job and heard
    /// byte.
    fn load(&mut self, sector: usize, record: &[u8]) {
        let mut due = self.desk.clone();
        let alone = hubqr::load(record, &mut self.alone[sector].area).unwrap();
        (due.jobs[sector], due.heard[sector]) = (alone.job, alone.heard);
        self.hand_in(sector, record, &due);
    }

    /// Hands in a record that waits: nothing of the desk changes but that, and the area stays.
    fn keep(&mut self, sector: usize, record: &[u8]) {
        let mut due = self.desk.clone();
        due.waits[sector] = 1;
        room(&mut due, sector).copy_from_slice(record);
        self.hand_in(sector, record, &due);
    }

    /// Hands in a record, which answers the desk that is due, and the job and the heard byte that the
    /// sector has there.
    fn hand_in(&mut self, sector: usize, record: &[u8], due: &Desk) {
        let (number, area) = (sector as u32, &mut self.lent[sector].area);
        let reply = self.desk.hand_in(Operator, number, record, area);
        let handed_in = reply.unwrap();
        assert_eq!(&self.desk, due);
        assert_eq!(handed_in.job, due.jobs[sector]);
        assert_eq!(handed_in.heard, due.heard[sector]);
        assert_eq!(self.lent[sector], self.alone[sector]);
        for role in [Viewer, Fitter, Operator] {
            assert_eq!(self.desk.heard(role, number), Ok(handed_in.heard));
        }
    }

    /// A Run that is granted so many turns, which the sector pays of what it has left.
    fn run(&mut self, sector: usize, request: u16, granted: u16) {
        let mut due = self.desk.clone();
        let job = due.jobs[sector];
        let alone = hubqr::run(job, granted, &mut self.alone[sector].area).unwrap();
        assert_eq!(alone.count, granted.into());
        due.jobs[sector] = alone.job;
        due.left[sector] -= granted;
        let area = &mut self.lent[sector].area;
        let progress = self.desk.run(Operator, sector as u32, request, area);
        assert_eq!((progress, &self.desk), (Ok(alone), &due));
        assert_eq!(self.lent[sector], self.alone[sector]);
    }

    fn fetch(&mut self, sector: usize, record: &[u8]) {
        self.fetch_by(Operator, sector, record);
    }

    /// A Fetch gives what Whole makes of the record. Where one waits and the operator fetches, that one is
    /// loaded; otherwise desk and area stay.
    fn fetch_by(&mut self, role: Role, sector: usize, record: &[u8]) {
        let mut due = self.desk.clone();
        if role == Operator && due.waits[sector] > 0 {
            let next = room(&mut due, sector).to_vec();
            let alone = hubqr::load(&next, &mut self.alone[sector].area).unwrap();
            (due.jobs[sector], due.heard[sector]) = (alone.job, alone.heard);
            due.waits[sector] = 0;
        }
        let mut whole = Lent::new();
        hubqr::whole(record, &mut whole.area, &mut whole.buffer).unwrap();
        let (area, mut buffer) = (&mut self.lent[sector].area, Lent::new().buffer);
        let fetched = self.desk.fetch(role, sector as u32, area, &mut buffer);
        assert_eq!((fetched, &self.desk), (Ok(()), &due));
        assert_eq!(buffer, whole.buffer);
        assert_eq!(self.lent[sector], self.alone[sector]);
    }

    /// A Run that is refused, since the sector has nothing left.
    fn used_up(&self, sector: usize, request: u16) {
        let run = |d: &mut Desk, l: &mut Lent| d.run(Operator, sector as u32, request, &mut l.area);
        refused(&self.desk, run, CountUsedUp);
    }

    fn begin(&mut self) {
        let left = self.desk.shares;
        let due = Desk { left, ..self.desk };
        assert_eq!((self.desk.begin(Operator), &self.desk), (Ok(()), &due));
    }

    fn set_shares(&mut self, shares: [u16; SECTORS]) {
        let due = Desk {
            shares,
            ..self.desk
        };
        let set = self.desk.set_shares(Operator, shares);
        assert_eq!((set, &self.desk), (Ok(()), &due));
    }
}

/// The bytes of a desk in which the record of a sector waits.
fn room(desk: &mut Desk, sector: usize) -> &mut [u8] {
    &mut desk.records[MATRIX_RECORD_BYTES * sector..][..MATRIX_RECORD_BYTES]
}

/// A matrix in which antennas 0 to `sector` alone have anything in their columns, and are heard.
fn record_of(sector: usize) -> Vec<u8> {
    matrix(|i, j| match j <= sector {
        true if i == j => (1000 + sector as i16, -5),
        true => element(i, j),
        false => (0, 0),
    })
}

/// A desk whose sectors differ, and a matrix waits for every other one.
fn busy() -> Desk {
    Desk {
        jobs: std::array::from_fn(|k| at(10 * k as u32, k as u32)),
        heard: std::array::from_fn(|k| 0xf0 + k as u8),
        shares: std::array::from_fn(|k| 20 - 2 * k as u16),
        left: std::array::from_fn(|k| 9 - k as u16),
        waits: std::array::from_fn(|k| k as u8 % 2),
        records: std::array::from_fn(|k| k as u8),
    }
}

/// The busy desk with another job for a sector, which has so much left.
fn placed(sector: usize, job: Job, left: u16) -> Desk {
    let mut desk = busy();
    (desk.jobs[sector], desk.left[sector]) = (job, left);
    desk
}

/// A desk that no calls lead to: one job is unfinished, the shares are far above 120, and what would
/// wait for a sector is no record.
fn made_up() -> Desk {
    let mut desk = Desk {
        jobs: [at(u32::MAX, u32::MAX); SECTORS],
        heard: [0xc3; SECTORS],
        shares: [u16::MAX; SECTORS],
        left: [u16::MAX; SECTORS],
        waits: [0; SECTORS],
        records: [0x3c; SECTORS * MATRIX_RECORD_BYTES],
    };
    (desk.jobs[2], desk.jobs[6]) = (at(5, 6), at(118, 1));
    desk.shares[5] = 0;
    desk
}

/// Makes a call that must be refused, on newly scribbled memory: it and the desk stay.
fn refused<T>(
    desk: &Desk,
    call: impl FnOnce(&mut Desk, &mut Lent) -> Result<T, Refusal>,
    with: Refusal,
) {
    let (mut kept, mut lent) = (desk.clone(), Lent::new());
    assert_eq!(call(&mut kept, &mut lent).err(), Some(with));
    assert_eq!((&kept, lent), (desk, Lent::new()));
}

#[test]
fn structs_of_the_desk_have_their_layout_in_c() {
    assert_eq!((size_of::<Desk>(), align_of::<Desk>()), (2168, 4));
    assert_eq!(offset_of!(Desk, jobs), 0);
    assert_eq!(offset_of!(Desk, heard), 64);
    assert_eq!(offset_of!(Desk, shares), 72);
    assert_eq!(offset_of!(Desk, left), 88);
    assert_eq!(offset_of!(Desk, waits), 104);
    assert_eq!(offset_of!(Desk, records), 112);
    assert_eq!(size_of::<ffi::Shares>(), 16);
    assert_eq!(align_of::<ffi::Shares>(), 2);
    assert_eq!(offset_of!(ffi::Shares, shares), 0);
    assert_eq!(size_of::<ffi::DeskReply>(), 2172);
    assert_eq!(offset_of!(ffi::DeskReply, desk), 0);
    assert_eq!(offset_of!(ffi::DeskReply, number), 2168);
    assert_eq!(size_of::<ffi::DeskLoadReply>(), 2180);
    assert_eq!(offset_of!(ffi::DeskLoadReply, desk), 0);
    assert_eq!(offset_of!(ffi::DeskLoadReply, number), 2168);
    assert_eq!(offset_of!(ffi::DeskLoadReply, heard), 2169);
    assert_eq!(offset_of!(ffi::DeskLoadReply, job), 2172);
    assert_eq!(size_of::<ffi::DeskRunReply>(), 2192);
    assert_eq!(offset_of!(ffi::DeskRunReply, desk), 0);
    assert_eq!(offset_of!(ffi::DeskRunReply, number), 2168);
    assert_eq!(offset_of!(ffi::DeskRunReply, job), 2172);
    assert_eq!(offset_of!(ffi::DeskRunReply, count), 2180);
    assert_eq!(offset_of!(ffi::DeskRunReply, clamps_r), 2184);
    assert_eq!(offset_of!(ffi::DeskRunReply, clamps_q), 2188);
    assert_eq!(size_of::<ffi::DeskHeardReply>(), 2172);
    assert_eq!(offset_of!(ffi::DeskHeardReply, desk), 0);
    assert_eq!(offset_of!(ffi::DeskHeardReply, number), 2168);
    assert_eq!(offset_of!(ffi::DeskHeardReply, heard), 2169);
}

#[test]
fn a_new_desk_stands_at_the_start_of_a_round() {
    let due = Desk {
        jobs: [at(120, 0); SECTORS],
        heard: [0; SECTORS],
        shares: [15; SECTORS],
        left: [15; SECTORS],
        waits: [0; SECTORS],
        records: [0; 2056],
    };
    assert_eq!([Desk::new(), Desk::default()], [due.clone(), due]);
    assert_eq!((SECTORS, ROUND_TURNS, FIRST_SHARE), (8, 120, 15));
}

/// Turns of empty columns are skipped and paid for, so all sectors are finished after eight rounds.
#[test]
fn eight_sectors_share_eight_rounds() {
    let records: [Vec<u8>; SECTORS] = std::array::from_fn(record_of);
    let mut hub = Hub::new();
    for (sector, record) in records.iter().enumerate() {
        hub.load(sector, record);
        assert_eq!(hub.desk.heard[sector], 0xff >> (7 - sector));
    }
    for _ in 0..8 {
        hub.begin();
        for sector in 0..SECTORS {
            hub.run(sector, 15, 15);
        }
        assert_eq!(hub.desk.left, [0; SECTORS]);
    }
    for (sector, record) in records.iter().enumerate() {
        hub.fetch(sector, record);
        hub.fetch(sector, record);
    }
    assert_eq!(hub.desk.jobs[0], at(120, 22));
    assert_eq!(hub.desk.jobs[7], at(120, 120));
}

/// A busy sector uses up what it has left, and the others have theirs.
#[test]
fn no_sector_uses_turns_of_another() {
    let mut hub = Hub::new();
    for sector in [3, 5, 6] {
        hub.load(sector, &record_of(sector));
    }
    hub.run(3, u16::MAX, 15);
    hub.used_up(3, 1);
    hub.run(5, 14, 14);
    hub.run(6, 0, 0);
    hub.set_shares([0, 0, 0, 90, 0, 30, 0, 0]);
    hub.used_up(3, 90); // the new share is that of the next round
    hub.run(5, 30, 1);
    hub.begin(); // the 15 turns that sector 6 has left are not added
    hub.run(3, 100, 90);
    hub.used_up(6, 1);
    hub.run(6, 0, 0);
    hub.run(5, 30, 30);
    hub.set_shares([0, 0, 0, 0, 0, 0, 120, 0]);
    hub.begin();
    hub.run(6, u16::MAX, 120);
    hub.used_up(5, 15);
    hub.set_shares([0, 0, 0, 40, 0, 80, 0, 0]);
    hub.begin();
    hub.run(3, 40, 15);
    hub.run(3, 40, 0);
    hub.run(5, 76, 75);
    for sector in [3, 5, 6] {
        hub.fetch(sector, &record_of(sector));
    }
}

/// Not one round less: of 120 turns by 7, 17 rounds leave one.
#[test]
fn a_job_takes_120_divided_by_the_share_rounds() {
    for (share, rounds) in [(1, 120), (7, 18), (8, 15), (59, 3), (60, 2), (120, 1)] {
        let mut hub = Hub::new();
        hub.set_shares(only(4, share));
        hub.load(4, &record_of(7));
        for round in 1..=rounds {
            assert!(!hub.desk.jobs[4].is_finished());
            hub.begin();
            hub.run(4, share, share.min(120 - share * (round - 1)));
        }
        hub.fetch(4, &record_of(7));
    }
}

/// They are taken on any desk, and any of up to 120 in total.
#[test]
fn shares_of_up_to_120_are_set() {
    let none = [0; SECTORS];
    let (one_under, zeros) = ([15, 15, 15, 15, 15, 15, 15, 14], [7, 0, 50, 0, 0, 63, 0, 0]);
    for shares in [none, [15; SECTORS], one_under, zeros, [1; SECTORS]] {
        for desk in [Desk::new(), busy(), made_up()] {
            let mut hub = Hub::new();
            hub.desk = desk;
            hub.set_shares(shares);
            hub.begin();
            assert_eq!(hub.desk.left, shares);
        }
    }
    for sector in 0..SECTORS {
        let mut hub = Hub::new();
        for share in 0..=ROUND_TURNS {
            hub.set_shares(only(sector, share));
            hub.begin();
        }
        assert_eq!(hub.desk.left, only(sector, 120));
    }
}

/// Kept in 16 bits, some of the totals would be at most 120.
#[test]
fn shares_above_120_in_total_are_refused() {
    let refuse = |shares| {
        let set = |d: &mut Desk, _: &mut Lent| d.set_shares(Operator, shares);
        for desk in [Desk::new(), busy(), made_up()] {
            refused(&desk, set, SharesExceedRound);
        }
    };
    refuse([u16::MAX; SECTORS]);
    refuse([8_192; SECTORS]);
    refuse([8_207; SECTORS]);
    refuse([16, 15, 15, 15, 15, 15, 15, 15]);
    refuse([15, 15, 15, 15, 15, 15, 15, 16]);
    for sector in 0..SECTORS {
        for share in [121, 255, 256, 376, 32_768, 65_535] {
            refuse(only(sector, share));
        }
        for (share, next) in [(1, 120), (120, 120), (65_535, 1), (32_768, 32_768)] {
            let mut shares = only(sector, share);
            shares[(sector + 1) % SECTORS] = next;
            refuse(shares);
        }
    }
}

/// The smallest of the request, what the sector has left and what its job has left.
#[test]
fn the_smallest_is_granted() {
    let numbers = [0, 1, 2, 59, 60, 61, 119, 120, 121, 256, u16::MAX];
    for (turn, made) in [(0, 0), (60, 7), (119, 119), (120, 0), (120, 120)] {
        for left in numbers {
            for request in numbers {
                let granted = request.min(left).min(120 - turn);
                if granted == 0 && request > 0 && turn < 120 {
                    continue; // which is refused
                }
                let mut hub = Hub::new();
                let sector = usize::from(left % 8);
                hub.desk = placed(sector, at(turn.into(), made), left);
                hub.run(sector, request, granted);
            }
        }
    }
}

/// Its work counts as done, so that Run makes nothing and Fetch takes the words that are there.
#[test]
fn a_sector_that_was_never_loaded_is_served() {
    for left in [0, 15] {
        let mut hub = Hub::new();
        hub.desk.left = [left; SECTORS];
        for sector in 0..SECTORS as u32 {
            hub.run(sector as usize, u16::MAX, 0);
            assert_eq!(hub.desk.heard(Operator, sector), Ok(0));
            let (mut area, mut buffer) = ([0; AREA_WORDS], [7; RESULT_RECORD_BYTES]);
            let fetched = hub.desk.fetch(Operator, sector, &mut area, &mut buffer);
            assert_eq!((fetched, buffer[0]), (Ok(()), KIND_RESULT));
            assert_eq!(buffer[1..], [0; RESULT_RECORD_BYTES - 1]);
            let fetch = |desk: &mut Desk, lent: &mut Lent, bytes: usize| {
                desk.fetch(Operator, sector, &mut lent.area, &mut lent.buffer[..bytes])
            };
            refused(&hub.desk, |d, l| fetch(d, l, 2048), BufferTooShort);
            refused(&hub.desk, |d, l| fetch(d, l, 2049), NotTriangular);
        }
    }
}

/// Any numbers are a desk. Those of one sector are of no concern to the others.
#[test]
fn a_made_up_desk_is_taken_as_it_is() {
    let mut hub = Hub::new();
    hub.desk = made_up();
    assert_eq!(hub.desk.heard(Operator, 2), Ok(0xc3));
    hub.run(6, u16::MAX, 2);
    for (sector, request) in [(2, 1), (7, 0)] {
        let run = |d: &mut Desk, l: &mut Lent| d.run(Operator, sector, request, &mut l.area);
        refused(&hub.desk, run, NoSuchJob);
    }
    hub.load(7, &record_of(2));
    hub.run(7, u16::MAX, 120);
    assert_eq!(hub.desk.left[7], u16::MAX - 120);
    assert_eq!(hub.desk.left[6], u16::MAX - 2);
    hub.fetch(7, &record_of(2));
    hub.begin(); // shares far above 120 are taken as well
    hub.load(5, &record_of(5));
    hub.used_up(5, 1);
    hub.load(3, &record_of(3));
    hub.run(3, u16::MAX, 120);
    assert_eq!(hub.desk.left[3], u16::MAX - 120);
}

/// Another sector is refused first, whatever else is wrong.
#[test]
fn no_other_sector_is_served() {
    for sector in NO_SECTORS {
        for job in [at(7, 5), at(120, 0), at(5, 6)] {
            for left in [0, 9] {
                refuses_sector(&placed(sector as usize % SECTORS, job, left), sector);
            }
        }
    }
}

/// Each call for one sector refuses this one.
fn refuses_sector(desk: &Desk, sector: u32) {
    let with = NoSuchSector;
    for (record, words) in [(&mixed_matrix(), 515), (&equal_parts(2), 515), (&vec![], 0)] {
        let hand_in =
            |d: &mut Desk, l: &mut Lent| d.hand_in(Operator, sector, record, &mut l.area[..words]);
        refused(desk, hand_in, with);
    }
    for (request, words) in [(1, 515), (0, 0)] {
        let run =
            |d: &mut Desk, l: &mut Lent| d.run(Operator, sector, request, &mut l.area[..words]);
        refused(desk, run, with);
    }
    for role in [Fitter, Operator] {
        let fetch = |d: &mut Desk, l: &mut Lent| d.fetch(role, sector, &mut l.area, &mut l.buffer);
        refused(desk, fetch, with);
        refused(desk, |d, _| d.fetch(role, sector, &mut [], &mut []), with);
    }
    for role in [Viewer, Fitter, Operator] {
        refused(desk, |d, _| d.heard(role, sector), with);
    }
}

/// Whether the record would be loaded, or would wait.
#[test]
fn hand_in_refuses() {
    let (record, hum) = (mixed_matrix(), equal_parts(2));
    let jobs = [at(120, 0), at(0, 0), at(119, 7), at(5, 6), at(121, 0)];
    for (sector, job) in (0..SECTORS).flat_map(|sector| jobs.map(|job| (sector, job))) {
        let desk = placed(sector, job, 0);
        let refuse = |record: &[u8], words: usize, with| {
            let hand_in = |d: &mut Desk, l: &mut Lent| {
                d.hand_in(Operator, sector as u32, record, &mut l.area[..words])
            };
            refused(&desk, hand_in, with);
        };
        refuse(&[], 512, WrongKind);
        refuse(&[&[2], &hum[1..256]].concat(), 511, WrongKind);
        refuse(&hum[..256], 511, WrongLength);
        refuse(&[&record[..], &[0]].concat(), 512, WrongLength);
        refuse(&record, 511, AreaTooShort);
        refuse(&hum, 511, AreaTooShort);
        refuse(&hum, 512, NoneHeard);
    }
}

#[test]
fn run_refuses() {
    for sector in 0..SECTORS {
        let refuse = |job, left, request, words: usize, with| {
            let desk = placed(sector, job, left);
            let run = |d: &mut Desk, l: &mut Lent| {
                d.run(Operator, sector as u32, request, &mut l.area[..words])
            };
            refused(&desk, run, with);
        };
        refuse(at(7, 5), 9, 1, 511, AreaTooShort);
        refuse(at(120, 0), 9, 0, 0, AreaTooShort);
        refuse(at(5, 6), 0, 1, 511, AreaTooShort);
        for (left, request) in [(9, 1), (9, 0), (0, 1), (0, 0), (u16::MAX, u16::MAX)] {
            refuse(at(5, 6), left, request, 512, NoSuchJob);
            refuse(at(121, 0), left, request, 512, NoSuchJob);
            refuse(at(120, u32::MAX), left, request, 512, NoSuchJob);
        }
        for turn in [0, 7, 119] {
            for request in [1, 120, 256, u16::MAX] {
                refuse(at(turn, 0), 0, request, 512, CountUsedUp);
                refuse(at(turn, turn), 0, request, 512, CountUsedUp);
            }
        }
    }
}

/// Whether a matrix waits, as for every other sector, or none: nothing is brought in.
#[test]
fn fetch_refuses() {
    for (sector, role) in (0..SECTORS).flat_map(|sector| [(sector, Fitter), (sector, Operator)]) {
        let refuse = |job, words: usize, bytes: usize, with| {
            let fetch = |d: &mut Desk, l: &mut Lent| {
                let (area, buffer) = (&mut l.area[..words], &mut l.buffer[..bytes]);
                d.fetch(role, sector as u32, area, buffer)
            };
            refused(&placed(sector, job, 0), fetch, with);
        };
        refuse(at(120, 0), 511, 2049, AreaTooShort);
        refuse(at(5, 6), 511, 2048, AreaTooShort);
        refuse(at(5, 6), 512, 2048, NoSuchJob);
        refuse(at(121, 121), 512, 2049, NoSuchJob);
        refuse(at(119, 119), 512, 2048, Unfinished);
        refuse(at(0, 0), 512, 2049, Unfinished);
        refuse(at(120, 120), 512, 2048, BufferTooShort);
        refuse(at(120, 0), 512, 2049, NotTriangular);
    }
}

/// The archive's reply to a refused Run has the desk that it was handed and 0 in all other fields,
/// those of the job too.
#[test]
fn a_refused_run_gives_the_desk_back_and_no_job() {
    let mut area = [7; AREA_WORDS];
    let mut given_back = |desk: Desk, sector, words: usize, with: Refusal| {
        let reply = raw::run(OPERATOR, &desk, sector, 1, &mut area[..words]);
        let due = ffi::DeskRunReply {
            desk,
            number: with.number(),
            job: at(0, 0),
            count: 0,
            clamps_r: 0,
            clamps_q: 0,
        };
        assert_eq!((reply, area), (due, [7; AREA_WORDS]));
    };
    for sector in 0..SECTORS as u32 {
        let desk = |job, left| placed(sector as usize, job, left);
        given_back(desk(at(7, 5), 9), sector, 511, AreaTooShort);
        given_back(desk(at(5, 6), 9), sector, 512, NoSuchJob);
        given_back(desk(at(7, 5), 0), sector, 512, CountUsedUp);
    }
    for sector in NO_SECTORS {
        given_back(busy(), sector, 512, NoSuchSector);
    }
}

/// The other replies to a refused call: the desk as it was, and 0 besides the number.
#[test]
fn refused_replies_hold_nothing_else() {
    let hum = equal_parts(2);
    let (area, buffer) = (&mut [7; AREA_WORDS], &mut [7; RESULT_RECORD_BYTES]);
    let handed_in = raw::hand_in(OPERATOR, &busy(), 1, &hum, area);
    let heard = raw::heard(OPERATOR, &busy(), 8);
    let fetched = raw::fetch(OPERATOR, &busy(), 1, area, buffer);
    let set = raw::set_shares(OPERATOR, &busy(), [16; SECTORS]);
    let due = ffi::DeskLoadReply {
        desk: busy(),
        number: NoneHeard.number(),
        heard: 0,
        job: at(0, 0),
    };
    assert_eq!(handed_in, due);
    assert_eq!((heard.desk, heard.number, heard.heard), (busy(), 12, 0));
    assert_eq!((fetched.desk, fetched.number), (busy(), 6));
    assert_eq!((set.desk, set.number), (busy(), 14));
    assert_eq!((area, buffer), (&mut [7; 512], &mut [7; 2049]));
}
