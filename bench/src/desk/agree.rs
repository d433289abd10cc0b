//! Before anything is timed: a desk answers what the engine's answers, in every field of the reply,
//! the desk, every word of the area and every byte of the buffer, where a call is accepted and where
//! it is refused.

use hubqr::ffi::{LoadReply, RunReply};
use hubqr::{Desk, Job, RESULT_RECORD_BYTES, SECTORS};
use reference::random::Random;

use super::calls::{any_area, any_call, any_role, made_up, Call};
use super::contenders::{Contender, ENGINE};
use crate::contenders::{Area, Buffer};
use crate::inputs;

/// Calls in a row, of which each takes the desk that the one before it answered, and after how many
/// of them all sectors are loaded again.
const CALLS: usize = 2000;
const CALLS_OF_A_LOAD: usize = 100;

/// Calls with a desk that was made up.
const MADE_UP: usize = 4000;

/// Where a contender first disagrees with the engine, if it does.
pub fn check(who: &Contender, seed: u64) -> Result<(), String> {
    let mut random = Random::new(seed);
    let mut desk = loaded();
    let mut areas: [Area; SECTORS] = std::array::from_fn(|_| inputs::words(&mut random));
    for k in 0..CALLS {
        if k % CALLS_OF_A_LOAD == 0 {
            desk.jobs = loaded().jobs;
        }
        let call = any_call(&mut random);
        let role = any_role(&mut random, &call);
        let area = &mut areas[call.sector().unwrap_or(0) as usize % SECTORS];
        let expected = outcome(&ENGINE, role, &desk, &call, area);
        compare(who, role, &desk, &call, area, &expected)?;
        (desk, *area) = (expected.desk, expected.area);
    }
    for _ in 0..MADE_UP {
        let (desk, call) = (made_up(&mut random), any_call(&mut random));
        let (role, area) = (any_role(&mut random, &call), any_area(&mut random));
        let expected = outcome(&ENGINE, role, &desk, &call, &area);
        compare(who, role, &desk, &call, &area, &expected)?;
    }
    Ok(())
}

/// A desk at the start of a round, whose sectors were just loaded.
pub fn loaded() -> Desk {
    let mut desk = Desk::new();
    desk.jobs = [Job { turn: 0, made: 0 }; SECTORS];
    desk
}

/// What a call answers.
#[derive(PartialEq)]
enum Reply {
    Number(u8),
    HandedIn(LoadReply),
    Ran(RunReply),
}

/// What a call leaves behind.
#[derive(PartialEq)]
struct Outcome {
    reply: Reply,
    desk: Desk,
    area: Area,
    buffer: Buffer,
}

fn outcome(who: &Contender, role: u32, desk: &Desk, call: &Call, area: &Area) -> Outcome {
    let (mut desk, mut area, mut buffer) = (desk.clone(), *area, [0xa5; RESULT_RECORD_BYTES]);
    let reply = match *call {
        Call::Begin => Reply::Number((who.begin)(role, &mut desk)),
        Call::SetShares(shares) => Reply::Number((who.set_shares)(role, &mut desk, shares)),
        Call::HandIn(sector, ref record, words) => {
            let area = &mut area[..words];
            Reply::HandedIn((who.hand_in)(role, &mut desk, sector, record, area))
        }
        Call::Run(sector, request, words) => {
            let area = &mut area[..words];
            Reply::Ran((who.run)(role, &mut desk, sector, request, area))
        }
        Call::Fetch(sector, words, bytes) => {
            let (area, buffer) = (&mut area[..words], &mut buffer[..bytes]);
            Reply::Number((who.fetch)(role, &mut desk, sector, area, buffer))
        }
    };
    Outcome {
        reply,
        desk,
        area,
        buffer,
    }
}

fn compare(
    who: &Contender,
    role: u32,
    desk: &Desk,
    call: &Call,
    area: &Area,
    expected: &Outcome,
) -> Result<(), String> {
    match outcome(who, role, desk, call, area) == *expected {
        true => Ok(()),
        false => Err(format!("role {role}, {call:?} and {desk:?}")),
    }
}

#[cfg(test)]
mod tests {
    use hubqr::ffi::Shares;
    use hubqr::{Role, AREA_WORDS, TURNS};

    use super::*;

    const VIEWER: u32 = Role::Viewer.number();
    const FITTER: u32 = Role::Fitter.number();
    const OPERATOR: u32 = Role::Operator.number();

    /// The operator in the place of this role.
    fn let_in(this: u32, role: u32) -> u32 {
        match role == this {
            true => OPERATOR,
            false => role,
        }
    }

    fn begins(begin: fn(u32, &mut Desk) -> u8) -> bool {
        check(&Contender { begin, ..ENGINE }, 1).is_ok()
    }

    fn sets(set_shares: fn(u32, &mut Desk, Shares) -> u8) -> bool {
        let who = Contender {
            set_shares,
            ..ENGINE
        };
        check(&who, 1).is_ok()
    }

    fn hands_in(hand_in: fn(u32, &mut Desk, u32, &[u8], &mut [i32]) -> LoadReply) -> bool {
        check(&Contender { hand_in, ..ENGINE }, 1).is_ok()
    }

    fn runs(run: fn(u32, &mut Desk, u32, u16, &mut [i32]) -> RunReply) -> bool {
        check(&Contender { run, ..ENGINE }, 1).is_ok()
    }

    fn fetches(fetch: fn(u32, &mut Desk, u32, &mut [i32], &mut [u8]) -> u8) -> bool {
        check(&Contender { fetch, ..ENGINE }, 1).is_ok()
    }

    /// Sets shares that have this total for the operator, if that is not above `most`.
    fn set_by(total: u16, most: u16, role: u32, desk: &mut Desk, shares: Shares) -> u8 {
        if role != OPERATOR {
            return 15;
        }
        if total > most {
            return 14;
        }
        desk.shares = shares.shares;
        0
    }

    /// The total of shares, or the largest number where it is above that.
    fn total(Shares { shares }: Shares) -> u16 {
        shares.into_iter().fold(0, u16::saturating_add)
    }

    #[test]
    fn wrong_rounds_are_noticed() {
        assert!(begins(ENGINE.begin) && runs(ENGINE.run));
        assert!(!begins(|role, desk| {
            let left = desk.left[3];
            let number = (ENGINE.begin)(role, desk);
            desk.left[3] = desk.left[3].saturating_add(left);
            number
        }));
        assert!(!runs(|role, desk, sector, request, area| {
            let left = desk.left;
            let reply = (ENGINE.run)(role, desk, sector, request, area);
            desk.left = left; // as if nobody paid
            reply
        }));
        assert!(!runs(|role, desk, sector, request, area| {
            let reply = (ENGINE.run)(role, desk, sector, request, area);
            let count = if sector == 7 { reply.count as u16 } else { 0 };
            desk.left[0] = desk.left[0].saturating_sub(count); // as if another paid too
            reply
        }));
    }

    #[test]
    fn wrong_shares_are_noticed() {
        assert!(sets(|role, desk, shares| {
            set_by(total(shares), 120, role, desk, shares)
        }));
        assert!(!sets(|role, desk, shares| {
            set_by(total(shares), 119, role, desk, shares)
        }));
        assert!(!sets(|role, desk, shares| {
            set_by(total(shares), 121, role, desk, shares)
        }));
        assert!(!sets(|role, desk, shares| {
            let cut = shares.shares.into_iter().fold(0, u16::wrapping_add);
            set_by(cut, 120, role, desk, shares)
        }));
        assert!(!sets(|role, desk, shares| {
            let number = (ENGINE.set_shares)(role, desk, shares);
            if number == 0 {
                desk.left = desk.shares; // as if they counted in this round
            }
            number
        }));
    }

    #[test]
    fn wrong_roles_are_noticed() {
        assert!(!begins(|role, desk| {
            let role = let_in(FITTER, role);
            (ENGINE.begin)(role, desk)
        }));
        assert!(!sets(|role, desk, shares| {
            (ENGINE.set_shares)(let_in(VIEWER, role), desk, shares)
        }));
        assert!(!hands_in(|role, desk, sector, record, area| {
            (ENGINE.hand_in)(let_in(FITTER, role), desk, sector, record, area)
        }));
        assert!(!runs(|role, desk, sector, request, area| {
            (ENGINE.run)(role % 256, desk, sector, request, area)
        }));
        assert!(!fetches(|role, desk, sector, area, buffer| {
            (ENGINE.fetch)(let_in(VIEWER, role), desk, sector, area, buffer)
        }));
        assert!(!fetches(|role, desk, sector, area, buffer| {
            (ENGINE.fetch)(role % 65_536, desk, sector, area, buffer)
        }));
        assert!(!fetches(|role, desk, sector, area, buffer| {
            (ENGINE.fetch)(let_in(FITTER, role), desk, sector, area, buffer) // as if it brought in
        }));
        assert!(!fetches(|role, desk, sector, area, buffer| {
            match sector > 7 {
                true => 12, // ahead of 15
                false => (ENGINE.fetch)(role, desk, sector, area, buffer),
            }
        }));
    }

    #[test]
    fn wrong_refusals_are_noticed() {
        assert!(!runs(|role, desk, sector, request, area| {
            (ENGINE.run)(role, desk, sector % 256, request, area)
        }));
        assert!(!runs(|role, desk, sector, request, area| {
            let job = desk.jobs.get(sector as usize).copied();
            let mut reply = (ENGINE.run)(role, desk, sector, request, area);
            if reply.number != 0 {
                reply.job = job.unwrap_or(reply.job); // as hubqr_run answers it
            }
            reply
        }));
        assert!(!runs(|role, desk, sector, request, area| {
            let mut reply = (ENGINE.run)(role, desk, sector, request, area);
            if reply.number == 13 {
                reply.number = 0;
            }
            reply
        }));
    }

    #[test]
    fn wrong_hand_ins_are_noticed() {
        assert!(hands_in(ENGINE.hand_in));
        assert!(!hands_in(|role, desk, sector, record, area| {
            if let Some(job) = desk.jobs.get_mut(sector as usize) {
                job.turn = job.turn.max(TURNS); // as if an unfinished job were dropped
            }
            (ENGINE.hand_in)(role, desk, sector, record, area)
        }));
        assert!(!hands_in(|role, desk, sector, record, area| {
            if let Some(waits) = desk.waits.get_mut(sector as usize) {
                *waits = 0; // as if one that waits were dropped when another comes, or is refused
            }
            (ENGINE.hand_in)(role, desk, sector, record, area)
        }));
        assert!(!hands_in(|role, desk, sector, record, area| {
            let mut reply = (ENGINE.hand_in)(role, desk, sector, record, area);
            if reply.number == 0 && desk.waits[sector as usize] > 0 {
                reply.heard = hubqr::load(record, &mut [0; AREA_WORDS]).map_or(0, |l| l.heard);
            }
            reply
        }));
        assert!(!hands_in(|role, desk, sector, record, area| {
            let reply = (ENGINE.hand_in)(role, desk, sector, record, area);
            if reply.number == 0 {
                desk.left[sector as usize] = desk.shares[sector as usize]; // as if a round began
            }
            reply
        }));
    }

    #[test]
    fn wrong_fetches_are_noticed() {
        assert!(fetches(ENGINE.fetch));
        assert!(!fetches(|role, desk, sector, area, buffer| {
            let before = desk.clone();
            let number = (ENGINE.fetch)(role, desk, sector, area, buffer);
            *desk = before; // as if nothing were brought in
            number
        }));
        assert!(!fetches(|role, desk, sector, area, buffer| {
            let waits = desk.waits;
            let number = (ENGINE.fetch)(role, desk, sector, area, buffer);
            desk.waits = waits; // as if it went on waiting
            number
        }));
        assert!(!fetches(|role, desk, sector, area, buffer| {
            let heard = desk.heard;
            let number = (ENGINE.fetch)(role, desk, sector, area, buffer);
            desk.heard = heard; // as if the heard byte outlasted the load
            number
        }));
        assert!(!fetches(|role, desk, sector, area, buffer| {
            let words = area.to_vec();
            let number = (ENGINE.fetch)(role, desk, sector, area, buffer);
            area.copy_from_slice(&words); // as if the area were only read
            number
        }));
    }
}
