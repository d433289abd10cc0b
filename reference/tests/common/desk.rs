//! The calls of the desk, made on the engine and on the reference.

mod call;
pub mod role;
mod seen;
mod source;

pub use call::{Call, Lent};
pub use seen::Seen;

use reference::area::{WorkArea, AREA_WORDS};
use reference::desk::{self, Desk, DeskReply, Seat, SECTORS};
use reference::job::Job;
use reference::random::Random;
use reference::records::RESULT_RECORD;

use super::twin::Twin;
use super::worked::Loaded;
use super::{engine, Case, SPARE};
use role::OPERATOR;
use source::{Fetched, Source, Sources};

/// An area, which belongs to one sector or is lent to several.
struct Area {
    words: Twin<i32>,
    /// The matrix that it was loaded with, while each accepted Run since was in step.
    loaded: Option<Loaded>,
}

/// Whether a call writes to the area that it is lent: it fills it, or makes turns.
fn writes(role: u32, desk: &Desk, call: &Call, reply: &DeskReply) -> bool {
    reply.number == 0 && (reply.count > 0 || call.loads(role, desk).is_some())
}

/// What an accepted hand-in or Fetch makes of a seat.
fn take_matrix(seat: &mut Seat, call: &Call, loads: Option<&[u8]>) {
    match (call, loads) {
        (_, Some(record)) => {
            (seat.job, seat.heard) = (Job::new(0, 0), heard(record));
            seat.waits = 0;
        }
        (Call::HandIn { record, .. }, None) => {
            seat.waits = 1;
            seat.record.copy_from_slice(record);
        }
        _ => {}
    }
}

/// Antenna k is heard when the real part of element (k, k) is above 16.
fn heard(record: &[u8]) -> u8 {
    let part = |k: usize| i16::from_be_bytes([record[1 + 36 * k], record[2 + 36 * k]]);
    (0..8).map(|k| u8::from(part(k) > 16) << k).sum()
}

/// The same desk on both sides, each with its own areas and its own buffer. Every call is made on
/// both; a difference in the reply, the desk in it, or any word or byte of memory fails the test.
pub struct BothDesk<'a> {
    case: Case,
    desk: Desk,
    areas: Vec<Area>,
    buffer: Twin<u8>,
    /// What the jobs of the desk were loaded from.
    sources: Sources,
    /// The last call, with the role and the desk that it was handed.
    last: Option<(u32, Desk, Call, Lent)>,
    seen: &'a mut Seen,
}

impl<'a> BothDesk<'a> {
    /// A new desk, with eight areas and a buffer that are filled at random.
    pub fn new(case: Case, seen: &'a mut Seen) -> Self {
        let mut random = Random::for_case(!case.seed, case.number);
        let areas = (0..SECTORS).map(|_| Area {
            words: Twin::new(AREA_WORDS + SPARE, || random.word()),
            loaded: None,
        });
        let areas = areas.collect();
        let both = BothDesk {
            case,
            desk: engine::desk_new(),
            areas,
            buffer: Twin::new(RESULT_RECORD + SPARE, || random.byte()),
            sources: Sources::default(),
            last: None,
            seen,
        };
        both.require(both.desk == Desk::NEW, "another new desk");
        both
    }

    /// The desk that was answered last, by both sides.
    pub fn desk(&self) -> &Desk {
        &self.desk
    }

    /// Goes on with any desk. Nobody knows what its jobs were loaded from.
    pub fn go_on_with(&mut self, desk: Desk) {
        self.desk = desk;
        self.sources = Sources::default();
    }

    /// Puts words into an area of both sides, which no sector has worked on.
    pub fn fill_area(&mut self, area: usize, words: &[i32; AREA_WORDS]) {
        self.areas[area].words.fill(words);
        self.areas[area].loaded = None;
        self.sources.write(None, area);
    }

    /// All words of an area of the engine, lent or not.
    pub fn words(&self, area: usize) -> &[i32] {
        self.areas[area].words.contents()
    }

    /// An area of the engine as rows and columns.
    pub fn work_area(&self, area: usize) -> WorkArea {
        let words = self.words(area).first_chunk();
        WorkArea::from_words(words.expect("an area always has 512 words"))
    }

    /// The first 2,049 bytes of the engine's buffer.
    pub fn fetched(&self) -> &[u8] {
        &self.bytes()[..RESULT_RECORD]
    }

    /// All bytes of the engine's buffer, lent or not.
    pub fn bytes(&self) -> &[u8] {
        self.buffer.contents()
    }

    /// Leaves no result in the buffer, so that the next one is seen to be written.
    pub fn spoil_buffer(&mut self) {
        self.buffer.fill(&[0xa5; RESULT_RECORD]);
    }

    /// Fails the test unless the result that was fetched last is what the engine's Whole makes of a
    /// record.
    pub fn require_result_of(&self, record: &[u8]) {
        let right = self.fetched() == source::whole(record);
        self.require(right, "the result of another matrix was fetched");
    }

    /// Makes a call with the desk that was answered last, and keeps the one that it answers.
    pub fn call(&mut self, role: u32, call: &Call, lent: Lent) -> DeskReply {
        let desk = self.desk;
        let reply = self.make(role, &desk, call, lent);
        match (reply.number, call.sector()) {
            (0, Some(sector)) => self.follow_source(role, sector as usize, call, lent.area, &reply),
            (8, Some(sector)) => {
                let in_step = self.sources.is_in_step(sector as usize, lent.area);
                self.require(!in_step, "a result in step was refused");
            }
            _ => {}
        }
        self.desk = reply.desk;
        reply
    }

    /// Makes a call with any desk, and keeps the one that was there.
    pub fn call_handed(&mut self, role: u32, desk: &Desk, call: &Call, lent: Lent) -> DeskReply {
        let reply = self.make(role, desk, call, lent);
        if writes(role, desk, call, &reply) {
            self.sources.write(None, lent.area);
        }
        reply
    }

    fn make(&mut self, role: u32, desk: &Desk, call: &Call, lent: Lent) -> DeskReply {
        self.last = Some((role, *desk, call.clone(), lent));
        self.areas[lent.area].words.lend(lent.words);
        self.buffer.lend(lent.bytes);
        let before = (self.words(lent.area).to_vec(), self.bytes().to_vec());
        let reply = self.on_the_engine(role, desk, call, lent);
        let reference = self.on_the_reference(role, desk, call, lent);
        self.compare(reply, reference);
        self.require_role(role, desk, call, &reply);
        if !writes(role, desk, call, &reply) {
            let same = self.words(lent.area) == before.0;
            self.require(same, "a call changed an area that it was only lent");
        }
        if reply.number == 0 {
            self.follow(role, desk, call, lent, &reply);
        } else {
            self.require(self.bytes() == before.1, "a refused call wrote a result");
            let nothing_else = DeskReply {
                number: reply.number,
                ..DeskReply::from(*desk)
            };
            self.require(reply == nothing_else, "a refused call answered more");
        }
        self.seen.count(role, desk, call, &reply);
        reply
    }

    fn on_the_engine(&mut self, role: u32, desk: &Desk, call: &Call, lent: Lent) -> DeskReply {
        let (area, buffer) = (&mut self.areas[lent.area].words, &mut self.buffer);
        match call {
            Call::Begin => engine::desk_begin(role, desk),
            Call::SetShares { shares } => engine::desk_set_shares(role, desk, *shares),
            Call::HandIn { sector, record } => {
                let mut handed = record.clone();
                let reply = engine::desk_hand_in(role, desk, *sector, &mut handed, area.engine());
                self.require(handed == *record, "a hand-in changed the record");
                reply
            }
            Call::Run { sector, request } => {
                engine::desk_run(role, desk, *sector, *request, area.engine())
            }
            Call::Fetch { sector } => {
                engine::desk_fetch(role, desk, *sector, area.engine(), buffer.engine())
            }
            Call::Heard { sector } => engine::desk_heard(role, desk, *sector),
        }
    }

    fn on_the_reference(&mut self, role: u32, desk: &Desk, call: &Call, lent: Lent) -> DeskReply {
        let (area, buffer) = (&mut self.areas[lent.area].words, &mut self.buffer);
        match call {
            Call::Begin => desk::begin(role, desk),
            Call::SetShares { shares } => desk::set_shares(role, desk, shares),
            Call::HandIn { sector, record } => {
                desk::hand_in(role, desk, *sector, record, area.reference())
            }
            Call::Run { sector, request } => {
                desk::run(role, desk, *sector, *request, area.reference())
            }
            Call::Fetch { sector } => {
                desk::fetch(role, desk, *sector, area.reference(), buffer.reference())
            }
            Call::Heard { sector } => desk::heard(role, desk, *sector),
        }
    }

    /// 15 is for those who may not make the call, and for nobody else. No call changes the desk but the
    /// operator's.
    fn require_role(&self, role: u32, desk: &Desk, call: &Call, reply: &DeskReply) {
        let refused = reply.number == 15;
        let due = refused != call.is_allowed_to(role);
        self.require(due, "15 is for those who may not make the call");
        let kept = role == OPERATOR || reply.desk == *desk;
        self.require(kept, "another than the operator changed the desk");
    }

    fn compare(&self, engine: DeskReply, reference: DeskReply) {
        if engine != reference {
            let replies = format!("engine {engine:?}, reference {reference:?}");
            self.require(false, &replies);
        }
        for (k, area) in self.areas.iter().enumerate() {
            if let Some(difference) = area.words.difference() {
                self.require(false, &format!("area {k}: {difference}"));
            }
        }
        if let Some(difference) = self.buffer.difference() {
            self.require(false, &format!("buffer: {difference}"));
        }
    }

    /// What holds of an accepted call: which seats of the desk it changes, and how.
    fn follow(&mut self, role: u32, handed: &Desk, call: &Call, lent: Lent, reply: &DeskReply) {
        let (mut due, loads) = (*handed, call.loads(role, handed));
        match call {
            Call::Begin => due.seats.iter_mut().for_each(|seat| seat.left = seat.share),
            Call::SetShares { shares } => {
                (0..SECTORS).for_each(|k| due.seats[k].share = shares[k]);
                let total: u64 = shares.iter().map(|share| u64::from(*share)).sum();
                self.require(total <= 120, "shares above 120 in total were set");
            }
            Call::Run { sector, request } => {
                let seat = &mut due.seats[*sector as usize];
                let granted = self.require_granted(seat, *request, reply);
                if granted > 0 {
                    self.follow_matrix(lent.area, seat.job, reply.job);
                }
                (seat.job, seat.left) = (reply.job, seat.left - granted);
            }
            Call::HandIn { sector, .. } | Call::Fetch { sector } => {
                let seat = &mut due.seats[*sector as usize];
                take_matrix(seat, call, loads.as_deref());
                let stands = (reply.job, reply.heard) == (seat.job, seat.heard);
                let handed_in = matches!(call, Call::HandIn { .. });
                self.require(stands || !handed_in, "another job or heard byte");
            }
            Call::Heard { .. } => {}
        }
        if let Some(record) = loads {
            self.areas[lent.area].loaded = Loaded::accepted(&record);
        }
        self.require(reply.desk == due, "another desk was answered");
    }

    /// Holds what a sector fetches to the matrix that its job was loaded from, and keeps account of
    /// what loads it and of who writes where. The desk is still the one that the call was handed.
    fn follow_source(
        &mut self,
        role: u32,
        sector: usize,
        call: &Call,
        area: usize,
        reply: &DeskReply,
    ) {
        let fetches = matches!(call, Call::Fetch { .. });
        let bytes = &self.buffer.contents()[..RESULT_RECORD];
        let fetched = fetches.then(|| self.sources.fetch(sector, area, bytes));
        match fetched.flatten() {
            Some(Ok((fetched, matrix))) => {
                let result = source::work_area(bytes);
                let errors = matrix.require_worked(&result, || self.named());
                self.seen.worst = self.seen.worst.max(errors);
                self.seen.matrices.count_fetched(role, fetched);
            }
            Some(Err(otherwise)) => self.require(false, otherwise),
            None => {}
        }
        if writes(role, &self.desk, call, reply) {
            self.sources.write(Some(sector), area);
        }
        if let Some(record) = call.loads(role, &self.desk) {
            let source = Source::new(&record, area, fetches);
            self.sources.load(sector, source);
        }
    }

    /// The smallest of the request, what the sector had left and what its job had left is granted,
    /// and no more turns are made.
    fn require_granted(&self, seat: &Seat, request: u16, reply: &DeskReply) -> u16 {
        let job = seat.job;
        let smallest = request.min(seat.left).min(120 - job.turn as u16);
        let granted = reply.count == u32::from(smallest);
        self.require(granted, "another number of turns was granted");
        let Job { turn, made } = reply.job;
        let within = job.made <= made && made <= job.made + reply.count && made <= turn;
        let grown = turn == job.turn + reply.count && within;
        self.require(grown, "the job grew by other turns than those granted");
        smallest
    }

    /// The last Run of a matrix that was worked in step leaves an accurate R and Q, at whichever
    /// seat its job was kept.
    fn follow_matrix(&mut self, area: usize, job: Job, next: Job) {
        let loaded = self.areas[area].loaded;
        let loaded = loaded.and_then(|loaded| loaded.after(job, next));
        self.areas[area].loaded = loaded;
        if let Some(loaded) = loaded.filter(|loaded| loaded.is_worked()) {
            let errors = loaded.require_worked(&self.work_area(area), || self.named());
            self.seen.worst = self.seen.worst.max(errors);
            self.seen.worked += 1;
        }
    }

    /// Fails the test, naming the case and the last call, unless the condition holds.
    pub fn require(&self, condition: bool, otherwise: &str) {
        assert!(condition, "{otherwise}\n{}", self.named());
    }

    fn named(&self) -> String {
        match &self.last {
            Some((role, desk, call, lent)) => {
                let by = format!("by role {role}, {lent:?}, {desk:?}");
                format!("{}\n{call} {by}", self.case)
            }
            None => self.case.to_string(),
        }
    }
}
