//! A sector that is served alone, with an area of its own, from a new desk on.

use reference::desk::{DeskReply, Seat};

use crate::common::desk::role::OPERATOR;
use crate::common::desk::{BothDesk, Call, Lent, Seen};
use crate::common::Case;
use crate::shares::giving;

/// A sector that has a round of 120 turns to itself.
pub struct Sector<'a> {
    pub both: BothDesk<'a>,
    pub sector: u32,
}

impl<'a> Sector<'a> {
    pub fn new(case: Case, sector: u32, seen: &'a mut Seen) -> Self {
        let mut random = case.random();
        let both = BothDesk::new(case, seen);
        let mut sector = Sector { both, sector };
        let shares = giving(sector.sector as usize, 120, &mut random);
        sector.call(&Call::SetShares { shares }, 0);
        sector.begin();
        sector
    }

    /// Makes a call of the operator that answers this number.
    fn call(&mut self, call: &Call, number: u8) -> DeskReply {
        let lent = Lent::area(self.sector as usize);
        self.call_lent(OPERATOR, call, lent, number)
    }

    /// Makes a call of a role that answers this number.
    pub fn call_lent(&mut self, role: u32, call: &Call, lent: Lent, number: u8) -> DeskReply {
        let reply = self.both.call(role, call, lent);
        self.both.require(reply.number == number, "another number");
        reply
    }

    pub fn begin(&mut self) {
        self.call(&Call::Begin, 0);
    }

    /// Hands in a record, and answers whether it has to wait.
    pub fn hand_in(&mut self, record: &[u8]) -> bool {
        let (sector, record) = (self.sector, record.to_vec());
        self.call(&Call::HandIn { sector, record }, 0);
        self.seat().waits == 1
    }

    /// Goes on by so many turns.
    pub fn run(&mut self, request: u16) {
        let sector = self.sector;
        let count = self.call(&Call::Run { sector, request }, 0).count;
        self.both.require(count == request.into(), "another grant");
    }

    /// Fetches the result of a record by the operator.
    pub fn fetch(&mut self, record: &[u8]) {
        self.fetch_by(OPERATOR, record);
    }

    /// Fetches the result of a record by a role.
    pub fn fetch_by(&mut self, role: u32, record: &[u8]) {
        let (sector, lent) = (self.sector, Lent::area(self.sector as usize));
        self.both.spoil_buffer();
        self.call_lent(role, &Call::Fetch { sector }, lent, 0);
        self.both.require_result_of(record);
    }

    pub fn seat(&self) -> Seat {
        self.both.desk().seats[self.sector as usize]
    }
}

/// The heard byte that the engine's own Load answers.
pub fn heard(record: &[u8]) -> u8 {
    let loaded = hubqr::load(record, &mut [0; hubqr::AREA_WORDS]);
    loaded.expect("the record is good").heard
}
