//! A hub that serves sectors with an area for each, from a new desk on. All calls are the operator's.

use reference::desk::{DeskReply, Seat};
use reference::job::Job;
use reference::matrix::{Complex, Matrix};
use reference::random::Random;
use reference::records::write_matrix;

use crate::common::desk::role::OPERATOR;
use crate::common::desk::{BothDesk, Call, Lent, Seen};
use crate::common::Case;
use crate::shares::Shares;

pub struct Hub<'a> {
    both: BothDesk<'a>,
}

impl<'a> Hub<'a> {
    pub fn new(test: &'static str, seed: u64, seen: &'a mut Seen) -> Self {
        let both = BothDesk::new(Case::of_words(test, seed, 0), seen);
        Hub { both }
    }

    /// Hands in a matrix that is loaded.
    pub fn load(&mut self, sector: u32, record: Vec<u8>) {
        self.hand_in(sector, record, Job::new(0, 0));
        assert_eq!(self.seat(sector as usize).waits, 0);
    }

    /// Hands in a matrix that waits.
    pub fn keep(&mut self, sector: u32, record: Vec<u8>) {
        let job = self.seat(sector as usize).job;
        self.hand_in(sector, record.clone(), job);
        let seat = self.seat(sector as usize);
        assert_eq!((seat.waits, &seat.record[..]), (1, &record[..]));
    }

    /// Hands in a matrix, which answers a job.
    fn hand_in(&mut self, sector: u32, record: Vec<u8>, job: Job) {
        let call = Call::HandIn { sector, record };
        let reply = self.call(&call, sector as usize);
        assert_eq!((reply.number, reply.job), (0, job));
    }

    /// The number, and the turns granted.
    pub fn run(&mut self, sector: u32, request: u16) -> (u8, u32) {
        let call = Call::Run { sector, request };
        let reply = self.call(&call, sector as usize);
        (reply.number, reply.count)
    }

    pub fn begin(&mut self) {
        assert_eq!(self.call(&Call::Begin, 0).number, 0);
    }

    pub fn set_shares(&mut self, shares: Shares) -> u8 {
        self.call(&Call::SetShares { shares }, 0).number
    }

    pub fn fetch(&mut self, sector: u32) -> u8 {
        self.call(&Call::Fetch { sector }, sector as usize).number
    }

    fn call(&mut self, call: &Call, area: usize) -> DeskReply {
        self.both.call(OPERATOR, call, Lent::area(area))
    }

    pub fn seat(&self, sector: usize) -> Seat {
        self.both.desk().seats[sector]
    }

    /// What each sector has left.
    pub fn left(&self) -> [u16; 8] {
        self.both.desk().seats.map(|seat| seat.left)
    }
}

pub fn full_record(seed: u64) -> Vec<u8> {
    let mut random = Random::new(seed);
    let mut any = || Complex::new(random.part(), random.part());
    let matrix = Matrix::from_fn(|_, _| any()).with_diagonal_at(0, 17);
    write_matrix(&matrix).to_vec()
}

/// A matrix none of whose turns is made.
pub fn clear_record() -> Vec<u8> {
    let nothing = Matrix::from_fn(|_, _| Complex::ZERO);
    write_matrix(&nothing.with_diagonal(|_| 16_384)).to_vec()
}
