//! What a sector gets depends on its own calls, its own shares and on when rounds begin, whatever
//! the other seven do: two histories that differ in nothing else answer it the same.

use reference::desk::{Desk, DeskReply, Seat};
use reference::random::Random;

use crate::common::desk::{BothDesk, Call, Seen};
use crate::common::words::arbitrary_area;
use crate::common::Case;
use crate::shares::giving;
use crate::steps::{Areas, Step, Steps};

/// Pairs of histories.
const PAIRS: u64 = 1_500;

/// What a sector knows of a history: a call of its own, by any role, a round that begins, or shares
/// that are accepted, with what it came to.
struct Event {
    step: Step,
    answer: Answer,
}

/// All that a call gives to a sector.
#[derive(Debug, PartialEq, Eq)]
struct Answer {
    /// With a new desk in the place of the one that was answered, which has the others at it.
    reply: DeskReply,
    seat: Seat,
    area: Vec<i32>,
    fetched: Option<Vec<u8>>,
}

impl Answer {
    fn new(both: &BothDesk, sector: usize, call: &Call, reply: DeskReply) -> Self {
        let fetched = matches!(call, Call::Fetch { .. }) && reply.number == 0;
        let desk = Desk::NEW;
        Answer {
            reply: DeskReply { desk, ..reply },
            seat: both.desk().seats[sector],
            area: both.words(sector).to_vec(),
            fetched: fetched.then(|| both.fetched().to_vec()),
        }
    }

    /// Whether a result was fetched and the next matrix loaded.
    fn brings_in(&self) -> bool {
        self.fetched.is_some() && self.seat.job.turn == 0
    }
}

/// Makes a random history and answers what one sector knows of it.
fn first(both: &mut BothDesk, sector: usize, steps: Steps, random: &mut Random) -> Vec<Event> {
    let mut events = Vec::new();
    for step in steps.history(80, random) {
        let reply = step.make(both);
        let known = match step.call {
            Call::Begin | Call::SetShares { .. } => reply.number == 0,
            _ => step.call.sector() == Some(sector as u32),
        };
        if known {
            let answer = Answer::new(both, sector, &step.call, reply);
            events.push(Event { step, answer });
        }
    }
    events
}

/// Makes another history with the same events. Shares that were accepted give the others other
/// ones.
fn second(both: &mut BothDesk, sector: usize, events: Vec<Event>, random: &mut Random) {
    for Event { mut step, answer } in events {
        others_do_anything(both, sector, random);
        if let Call::SetShares { shares } = &mut step.call {
            *shares = giving(sector, shares[sector], random);
        }
        let reply = step.make(both);
        let same = Answer::new(both, sector, &step.call, reply) == answer;
        both.require(same, "others changed what a sector gets");
    }
}

/// Calls of others, accepted and refused, and shares for all of which the sector's own stays.
fn others_do_anything(both: &mut BothDesk, sector: usize, random: &mut Random) {
    for _ in 0..random.below(5) {
        let share = both.desk().seats[sector].share;
        let step = Steps::OF_ALL.draw_within(sector, share, random);
        if step.call.sector() != Some(sector as u32) {
            step.make(both);
        }
    }
}

/// Fills the areas of all other sectors with other words.
fn fill_others(both: &mut BothDesk, sector: usize, random: &mut Random) {
    for other in (0..8).filter(|other| *other != sector) {
        both.fill_area(other, &arbitrary_area(random));
    }
}

/// The seats of all other sectors.
fn others(both: &BothDesk, sector: usize) -> Vec<Seat> {
    let seats = both.desk().seats.iter().enumerate();
    let others = seats.filter(|(other, _)| *other != sector);
    others.map(|(_, seat)| *seat).collect()
}

#[test]
fn whatever_others_do_a_sector_gets_the_same() {
    let (mut seen, mut alike, mut granted, mut brought_in, mut apart) =
        (Seen::default(), 0, 0, 0, 0);
    for number in 0..PAIRS {
        let case = Case::of_words("what others do", 1111, number);
        let mut random = case.random();
        let steps = Steps::of_some(Areas::Own, &mut random);
        let sector = random.below(steps.served as usize);
        let mut both = BothDesk::new(case.clone(), &mut seen);
        let events = first(&mut both, sector, steps, &mut random);
        let before = others(&both, sector);
        alike += events.len() as u64;
        granted += events.iter().map(|e| e.answer.reply.count).sum::<u32>();
        brought_in += events.iter().filter(|e| e.answer.brings_in()).count() as u64;
        let mut both = BothDesk::new(case, &mut seen);
        fill_others(&mut both, sector, &mut random);
        second(&mut both, sector, events, &mut random);
        apart += u64::from(others(&both, sector) != before);
    }
    seen.print(&format!(
        "{PAIRS} pairs of histories, {alike} calls that came to the same for a sector, with \
         {granted} turns granted and {brought_in} matrices brought in, {apart} pairs with others \
         elsewhere at the end"
    ));
    assert!(alike > 10 * PAIRS, "few calls were compared");
    assert!(brought_in > PAIRS / 10, "few matrices were brought in");
    assert!(apart > PAIRS * 9 / 10, "others did the same in many pairs");
}
