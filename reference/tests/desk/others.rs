//! Others than the operator: what they may do is done for them as for the operator, and nothing that
//! they do changes the desk or an area.

use reference::area::AREA_WORDS;
use reference::desk::Desk;
use reference::job::Job;
use reference::random::Random;

use crate::common::desk::role::{FITTER, OPERATOR, VIEWER};
use crate::common::desk::{BothDesk, Call, Lent, Seen};
use crate::common::words::arbitrary_area;
use crate::common::Case;
use crate::made_up::any_desk;
use crate::roles::roles;
use crate::steps::{any_lent, other_role, Areas, Steps};

/// Made-up desks, and histories that others go on from.
const DESKS: u64 = 600;
const HISTORIES: u64 = 400;

/// What a role is answered, but for the desk, and the result that is written.
type Answered = (u8, u8, Job, u32, Option<Vec<u8>>);

const NOT_ALLOWED: Answered = (15, 0, Job::new(0, 0), 0, None);

fn answered(both: &mut BothDesk, role: u32, desk: &Desk, call: &Call, lent: Lent) -> Answered {
    let reply = both.call_handed(role, desk, call, lent);
    let fetched = call.is_fetch() && reply.number == 0;
    let fetched = fetched.then(|| both.fetched().to_vec());
    (reply.number, reply.heard, reply.job, reply.count, fetched)
}

/// Any desk. Every other one is at the end of all its jobs.
fn desk_to_call(random: &mut Random) -> Desk {
    let mut desk = any_desk(random);
    if random.one_in(2) {
        for seat in &mut desk.seats {
            seat.job = Job::new(120, random.below(121) as u32);
        }
    }
    desk
}

/// At any desk those who may make a call are answered alike, and all others alike.
#[test]
fn whoever_may_make_a_call_is_answered_like_the_operator() {
    let (mut seen, mut alike) = (Seen::default(), 0);
    for number in 0..DESKS {
        let case = Case::of_words("made-up desks, every role", 1202, number);
        let (mut random, mut both) = (case.random(), BothDesk::new(case, &mut seen));
        if random.one_in(3) {
            both.fill_area(0, &arbitrary_area(&mut random));
        } else {
            both.fill_area(0, &[0; AREA_WORDS]);
        }
        let (desk, lent) = (desk_to_call(&mut random), any_lent(0, &mut random));
        let drawn = random.choose(&[VIEWER, FITTER, OPERATOR]);
        let call = Steps::OF_ALL.draw_by(drawn, &mut random).call;
        let answer = |role| (role, answered(&mut both, role, &desk, &call, lent));
        let answers: Vec<(u32, Answered)> = roles().map(answer).collect();
        let (_, operator) = answers.last().expect("the operator came last");
        for (role, answer) in &answers {
            let allowed = call.is_allowed_to(*role);
            let due = if allowed { operator } else { &NOT_ALLOWED };
            both.require(answer == due, "another answer");
            alike += u64::from(allowed && *role != OPERATOR && answer.0 == 0);
        }
    }
    seen.print(&format!(
        "{DESKS} made-up desks, every role, {alike} accepted like the operator"
    ));
    assert!(alike > DESKS / 4, "few were accepted");
}

/// All words of all areas.
fn all_words(both: &BothDesk) -> Vec<i32> {
    let areas = (0..8).map(|area| both.words(area));
    areas.collect::<Vec<_>>().concat()
}

/// From any history on: the desk and the areas are as they were after each call of anybody else, and
/// the buffer is but for a fitter's Fetch that is accepted.
#[test]
fn nobody_but_the_operator_changes_anything() {
    let (mut seen, mut fetched) = (Seen::default(), 0);
    for number in 0..HISTORIES {
        let case = Case::of_words("calls of others", 1203, number);
        let mut random = case.random();
        let steps = Steps::of_some(Areas::Own, &mut random);
        let mut both = BothDesk::new(case, &mut seen);
        for step in steps.history(40, &mut random) {
            step.make(&mut both);
        }
        let (desk, words) = (*both.desk(), all_words(&both));
        for _ in 0..40 {
            let role = other_role(&mut random);
            let step = steps.draw_by(role, &mut random);
            let buffer = both.bytes().to_vec();
            let reply = step.make(&mut both);
            let same = *both.desk() == desk && all_words(&both) == words;
            both.require(same, "another than the operator changed something");
            let writes = role == FITTER && step.call.is_fetch() && reply.number == 0;
            let same = writes || both.bytes() == buffer;
            both.require(same, "the buffer of a call that fetches nothing");
            fetched += u64::from(writes);
        }
    }
    seen.print(&format!(
        "{HISTORIES} histories that others go on from, {fetched} results fetched"
    ));
    assert!(fetched > HISTORIES / 2, "few results were fetched");
}
