//! The promise to a loaded sector: where the operator requests its share s in every round, it is
//! finished within 120 divided by s rounds, rounded up. The load may be that of a hand-in or of a
//! Fetch, and matrices that are handed in meanwhile wait. Requests of others do nothing for it, and no
//! round begins by theirs.

use reference::job::Job;
use reference::random::Random;

use crate::common::desk::role::{FITTER, OPERATOR, UNKNOWN, VIEWER};
use crate::common::desk::{BothDesk, Call, Lent, Seen};
use crate::common::Case;
use crate::shares::giving;
use crate::steps::{good_record, Steps};

/// Histories for each share.
const HISTORIES: u64 = 8;

/// How a sector is loaded.
#[derive(Debug, Clone, Copy, PartialEq, Eq)]
enum By {
    HandIn,
    Fetch,
}

/// A loaded sector with a share.
struct Sector<'a> {
    both: BothDesk<'a>,
    sector: usize,
    share: u16,
    /// The rounds begun after the load.
    rounds: u16,
    /// Whether the job that was loaded has come to its end. It may then be fetched, and the next one
    /// be loaded.
    finished: bool,
}

impl<'a> Sector<'a> {
    /// Gives a sector its share, after so many calls of anybody, and loads it.
    fn new(case: Case, share: u16, by: By, calls: usize, seen: &'a mut Seen) -> Self {
        let mut random = case.random();
        let mut sector = Sector {
            both: BothDesk::new(case, seen),
            sector: random.below(8),
            share,
            rounds: 0,
            finished: false,
        };
        for _ in 0..calls {
            Steps::OF_ALL.draw(&mut random).make(&mut sector.both);
        }
        sector.load(by, &mut random);
        sector
    }

    /// Sets the share and loads the sector, by a hand-in once there is nothing to do for it, or by the
    /// Fetch of a matrix before.
    fn load(&mut self, by: By, random: &mut Random) {
        if self.waits() {
            self.work_off(random);
        }
        if by == By::Fetch {
            self.hand_in(random);
            if !self.waits() {
                self.hand_in(random);
            }
        }
        self.work(random);
        let shares = giving(self.sector, self.share, random);
        self.call(&Call::SetShares { shares }, &[0]);
        match by {
            By::HandIn => self.hand_in(random),
            By::Fetch => self.fetch(),
        }
        let loaded = self.turn() == 0 && !self.waits();
        self.both.require(loaded, "the sector was not loaded");
    }

    /// Works on until nothing waits.
    fn work_off(&mut self, random: &mut Random) {
        self.work(random);
        self.fetch();
        self.work(random);
    }

    /// Works the job to its end, in a round that is the sector's own.
    fn work(&mut self, random: &mut Random) {
        let shares = giving(self.sector, 120, random);
        self.call(&Call::SetShares { shares }, &[0]);
        self.call(&Call::Begin, &[0]);
        let (sector, request) = (self.sector as u32, 120);
        self.call(&Call::Run { sector, request }, &[0]);
    }

    fn hand_in(&mut self, random: &mut Random) {
        let (sector, record) = (self.sector as u32, good_record(random));
        self.call(&Call::HandIn { sector, record }, &[0]);
    }

    fn fetch(&mut self) {
        let sector = self.sector as u32;
        self.call(&Call::Fetch { sector }, &[0]);
    }

    /// Makes a call of the operator that answers one of these numbers.
    fn call(&mut self, call: &Call, numbers: &[u8]) {
        self.call_by(OPERATOR, call, numbers);
    }

    fn call_by(&mut self, role: u32, call: &Call, numbers: &[u8]) {
        let number = self.both.call(role, call, Lent::area(self.sector)).number;
        let due = numbers.contains(&number);
        self.both.require(due, "another number");
    }

    fn begin(&mut self) {
        self.call(&Call::Begin, &[0]);
        self.rounds += 1;
    }

    /// The request of the share.
    fn run(&self) -> Call {
        Call::Run {
            sector: self.sector as u32,
            request: self.share,
        }
    }

    /// Requests the share. Other requests may have used it up in this round.
    fn request(&mut self) {
        self.call(&self.run(), &[0, 13]);
        self.finished |= self.turn() == 120;
    }

    /// Three others request the share and begin a round. Neither is allowed to them.
    fn others_request(&mut self) {
        let run = self.run();
        let unknown = UNKNOWN[usize::from(self.rounds) % UNKNOWN.len()];
        for role in [VIEWER, FITTER, unknown] {
            self.call_by(role, &run, &[15]);
            self.call_by(role, &Call::Begin, &[15]);
        }
    }

    /// Other calls of the sector and of others, until it is finished. It keeps its share.
    fn do_anything(&mut self, random: &mut Random) {
        for _ in 0..random.below(5) {
            if !self.finished {
                let step = Steps::OF_ALL.draw_within(self.sector, self.share, random);
                step.make(&mut self.both);
                self.finished |= self.turn() == 120;
            }
        }
    }

    fn turn(&self) -> u16 {
        self.both.desk().seats[self.sector].job.turn as u16
    }

    fn waits(&self) -> bool {
        self.both.desk().seats[self.sector].waits != 0
    }

    /// The turns that the shares of all its rounds make, and no more than a job has.
    fn due(&self) -> u16 {
        120.min(self.share * self.rounds)
    }

    /// The rounds in which it is promised to finish.
    fn promised(&self) -> u16 {
        120_u16.div_ceil(self.share)
    }
}

/// With no other turns it takes all of these rounds, whatever others request: with a share of 7 the
/// sector stands at turn 119 after 17 of them.
#[test]
fn a_sector_takes_as_many_rounds_as_its_share_needs() {
    let mut seen = Seen::default();
    for (share, by) in (1..=120).flat_map(|share| [(share, By::HandIn), (share, By::Fetch)]) {
        let case = Case::of_words("rounds of a share", 1171, share.into());
        let mut sector = Sector::new(case, share, by, 0, &mut seen);
        for _ in 0..sector.promised() {
            sector.both.require(sector.turn() < 120, "too early");
            sector.begin();
            sector.others_request();
            sector.request();
            sector.others_request();
            let stands = sector.turn() == sector.due();
            sector.both.require(stands, "another turn number");
        }
        sector.both.require(sector.finished, "too late");
        sector.fetch();
    }
    seen.print("Rounds of every share");
    assert_eq!((seen.worked, seen.matrices.fetched_brought_in), (360, 120));
}

/// A sector for which nobody but others requests stands where it was loaded, with its share left, for
/// twice as many rounds as it is promised to need.
#[test]
fn a_sector_for_which_only_others_request_does_not_move() {
    let mut seen = Seen::default();
    for (share, by) in (1..=120).flat_map(|share| [(share, By::HandIn), (share, By::Fetch)]) {
        let case = Case::of_words("others request", 1173, share.into());
        let mut sector = Sector::new(case, share, by, 0, &mut seen);
        for _ in 0..2 * sector.promised() {
            sector.begin();
            sector.others_request();
            let seat = sector.both.desk().seats[sector.sector];
            let stands = (seat.job, seat.left) == (Job::new(0, 0), share);
            sector.both.require(stands, "others made a sector move");
        }
    }
    seen.print("Others request");
    seen.assert_numbers(&[15]);
}

/// Where nobody but others begins rounds, a sector gets what it has left, and then 13.
#[test]
fn rounds_that_only_others_begin_give_no_turn() {
    let mut seen = Seen::default();
    for share in 1..120 {
        let case = Case::of_words("others begin", 1174, share.into());
        let mut sector = Sector::new(case, share, By::HandIn, 0, &mut seen);
        sector.begin();
        sector.request();
        for _ in 0..4 {
            sector.others_request();
            sector.call(&sector.run(), &[13]);
            sector.both.require(sector.turn() == share, "a turn more");
        }
    }
    seen.print("Others begin");
    seen.assert_numbers(&[13, 15]);
}

/// From any history on, and with any calls of anybody between.
#[test]
fn a_sector_that_requests_its_share_finishes_in_time() {
    let (mut seen, mut early) = (Seen::default(), 0);
    for number in 0..120 * HISTORIES {
        let case = Case::of_words("a share requested", 1172, number);
        let (mut random, share) = (case.random(), number as u16 % 120 + 1);
        let (by, calls) = (random.choose(&[By::HandIn, By::Fetch]), random.below(10));
        let mut sector = Sector::new(case, share, by, calls, &mut seen);
        sector.do_anything(&mut random);
        while !sector.finished {
            sector
                .both
                .require(sector.rounds < sector.promised(), "too late");
            sector.begin();
            sector.do_anything(&mut random);
            if !sector.finished {
                sector.request();
            }
            sector.do_anything(&mut random);
            let stands = sector.turn() >= sector.due() || sector.finished;
            sector.both.require(stands, "fewer turns than its shares");
        }
        early += u64::from(sector.waits());
        sector.fetch();
    }
    let histories = 120 * HISTORIES;
    seen.print(&format!(
        "{histories} histories with a share requested, in {early} of which the next matrix waited \
         at the end"
    ));
    assert!(seen.worked >= histories, "a sector was not worked in step");
    assert!(seen.matrices.fetched >= histories, "one was not in step");
    assert!(early > histories / 16, "few matrices came early");
}
