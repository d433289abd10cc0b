//! Two hubs that are to agree in little. How each of them comes to where it has to be is drawn at
//! random, and so is all that it does besides.

use std::fmt::{self, Display};

use reference::cases::Kind;
use reference::desk::{Desk, DeskReply, Seat, SECTORS};
use reference::job::Job;
use reference::random::Random;
use reference::records::write_matrix;

use crate::common::desk::role::OPERATOR;
use crate::common::desk::{BothDesk, Call, Lent, Seen};
use crate::common::Case;
use crate::shares::giving;
use crate::steps::{Areas, Step, Steps};

/// One of the two, from a new desk on, with an area for each sector.
pub struct Side<'a> {
    pub both: BothDesk<'a>,
    pub random: Random,
    steps: Steps,
}

/// What the two may differ in, at one place.
pub struct Stand {
    desk: Desk,
    areas: Vec<Vec<i32>>,
}

impl<'a> Side<'a> {
    /// A hub that serves so many sectors.
    pub fn new(case: Case, served: u32, seen: &'a mut Seen) -> Self {
        let random = case.random();
        let steps = Steps {
            areas: Areas::Own,
            served,
            brisk: false,
        };
        Side {
            both: BothDesk::new(case, seen),
            random,
            steps,
        }
    }

    pub fn seat(&self, sector: u32) -> &Seat {
        &self.both.desk().seats[sector as usize]
    }

    pub fn is_finished(&self, sector: u32) -> bool {
        self.seat(sector).job.turn == 120
    }

    /// Makes a call of the operator, which is accepted.
    fn operate(&mut self, call: &Call) {
        let area = call.sector().unwrap_or(0) as usize;
        let reply = self.both.call(OPERATOR, call, Lent::area(area));
        self.both.require(reply.number == 0, "refused");
    }

    /// Loads a sector from a record, at once or after the work before. Every third time another matrix
    /// is loaded first.
    pub fn load(&mut self, sector: u32, record: &[u8]) {
        if self.random.one_in(3) {
            let heard = any_heard(&mut self.random);
            let first = record_with(heard, &mut self.random);
            self.load_once(sector, &first);
        }
        self.load_once(sector, record);
    }

    fn load_once(&mut self, sector: u32, record: &[u8]) {
        let record = record.to_vec();
        let waits = !self.is_finished(sector) || self.seat(sector).waits != 0;
        self.operate(&Call::HandIn { sector, record });
        if waits {
            self.work(sector);
            self.operate(&Call::Fetch { sector });
        }
        let Seat { job, waits, .. } = *self.seat(sector);
        let loaded = (job, waits) == (Job::new(0, 0), 0);
        self.both.require(loaded, "the sector was not loaded");
    }

    /// Works a sector's job to its end, in rounds that give it much or all.
    fn work(&mut self, sector: u32) {
        while !self.is_finished(sector) {
            let share = self.random.choose(&[30, 60, 119, 120]);
            let shares = giving(sector as usize, share, &mut self.random);
            self.operate(&Call::SetShares { shares });
            self.operate(&Call::Begin);
            let request = self.random.choose(&[60, 120, u16::MAX]);
            self.operate(&Call::Run { sector, request });
        }
    }

    /// Goes on with a sector's job, if need be to its end. Every other time the next matrix comes
    /// before.
    pub fn go_on(&mut self, sector: u32, to_the_end: bool) {
        if !self.is_finished(sector) && self.random.one_in(2) {
            let heard = any_heard(&mut self.random);
            let record = record_with(heard, &mut self.random);
            self.operate(&Call::HandIn { sector, record });
        }
        if to_the_end {
            self.work(sector);
        }
    }

    /// Any calls of everybody but one role. None of them loads a sector, or is one that may not be.
    pub fn stir(&mut self, but: u32, may: impl Fn(&Desk, &Step) -> bool) {
        for _ in 0..self.random.below(16) {
            let step = self.steps.draw(&mut self.random);
            let desk = self.both.desk();
            if step.role != but && step.loads(desk).is_none() && may(desk, &step) {
                step.make(&mut self.both);
            }
        }
    }

    pub fn stand(&self) -> Stand {
        let areas = (0..SECTORS).map(|area| self.both.words(area).to_vec());
        Stand {
            desk: *self.both.desk(),
            areas: areas.collect(),
        }
    }
}

/// In how many places two hubs were apart, and in what.
#[derive(Debug, Default)]
pub struct Apart {
    pub places: u64,
    pub areas: u64,
    pub jobs: u64,
    /// The turns made of jobs that are at their end.
    pub made: u64,
    pub shares: u64,
    pub left: u64,
    pub waits: u64,
}

impl Display for Apart {
    fn fmt(&self, f: &mut fmt::Formatter) -> fmt::Result {
        let Apart {
            places,
            areas,
            jobs,
            made,
            shares,
            left,
            waits,
        } = self;
        write!(
            f,
            "in {places} places apart in areas {areas} times, in jobs {jobs}, in the turns made of \
             finished jobs {made}, in shares {shares}, in what is left {left}, in what waits {waits}"
        )
    }
}

impl Apart {
    pub fn count(&mut self, one: &Stand, other: &Stand) {
        let seats = || one.desk.seats.iter().zip(&other.desk.seats);
        let any = |apart: fn(&Seat, &Seat) -> bool| u64::from(seats().any(|(a, b)| apart(a, b)));
        self.places += 1;
        self.areas += u64::from(one.areas != other.areas);
        self.jobs += any(|a, b| a.job != b.job);
        self.made += any(|a, b| {
            let finished = a.job.turn == 120 && b.job.turn == 120;
            finished && a.job.made != b.job.made
        });
        self.shares += any(|a, b| a.share != b.share);
        self.left += any(|a, b| a.left != b.left);
        self.waits += any(|a, b| a.waits != b.waits || (a.waits != 0 && a.record != b.record));
    }

    /// Fails the test unless the two were apart nearly everywhere, but for their jobs.
    pub fn assert_most(&self) {
        let others = self.shares.min(self.left).min(self.waits);
        let least = self.areas.min(others);
        assert!(least > self.places * 3 / 4, "many places were alike");
    }
}

/// A reply without the desk, which goes back to the host alone.
pub fn without_desk(reply: DeskReply) -> DeskReply {
    DeskReply {
        desk: Desk::NEW,
        ..reply
    }
}

pub fn heard_bytes(desk: &Desk) -> [u8; SECTORS] {
    desk.seats.map(|seat| seat.heard)
}

/// A heard byte of a matrix that is accepted.
pub fn any_heard(random: &mut Random) -> u8 {
    random.between(1, 255) as u8
}

/// Any matrix with a heard byte. The diagonal is above 16 where it has to be, and elsewhere not.
pub fn record_with(heard: u8, random: &mut Random) -> Vec<u8> {
    let matrix = random.choose(&Kind::ALL).matrix(random);
    let matrix = matrix.with_diagonal(|k| {
        let ends = if heard >> k & 1 == 1 {
            [17, 32_767]
        } else {
            [-32_768, 16]
        };
        let between = random.between(ends[0], ends[1]);
        random.choose(&[ends[0], between, between, ends[1]]) as i16
    });
    write_matrix(&matrix).to_vec()
}
