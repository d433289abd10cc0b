//! What a fitter is answered goes by its own calls and what they are lent, by the heard bytes and by
//! which jobs are at their end: two histories that agree in these answer it the same, whatever the
//! turns made, the shares, the counts and the matrices that wait.

use reference::area::AREA_WORDS;
use reference::desk::{Desk, DeskReply, SECTORS};
use reference::job::Job;
use reference::random::Random;

use crate::common::desk::role::FITTER;
use crate::common::desk::{BothDesk, Call, Lent, Seen};
use crate::common::words::arbitrary_area;
use crate::common::Case;
use crate::made_up::{any_desk, job_or_none};
use crate::pairs::{any_heard, heard_bytes, record_with, without_desk, Apart, Side, Stand};
use crate::steps::{any_lent, Step, Steps};

/// Pairs of histories, and of desks that a host made up.
const PAIRS: u64 = 300;
const DESKS: u64 = 3_000;

/// The sectors that are served differently, and the one that both histories serve alike. The fitter is
/// lent the area of that one, or the last, which is nobody's.
const SERVED: u32 = 6;
const ALIKE: u32 = 6;

/// Where a sector has to stand.
struct Target {
    sector: u32,
    heard: u8,
    finished: bool,
}

/// What both histories of a pair have: where some sectors have to stand, the matrix of the one that is
/// alike, and the fitter's calls afterwards.
struct Stage {
    targets: Vec<Target>,
    record: Vec<u8>,
    calls: Vec<(Call, Lent)>,
}

/// What the histories have to agree in: the heard bytes, and which jobs are at their end.
type Agreed = ([u8; SECTORS], [bool; SECTORS]);

/// What a fitter is answered: the reply without the desk, and the result.
type Answered = (DeskReply, Option<Vec<u8>>);

#[derive(Default)]
struct History {
    views: Vec<(Agreed, Answered)>,
    stands: Vec<Stand>,
}

fn any_stage(random: &mut Random) -> Stage {
    let targets = (0..random.between(1, 3)).map(|_| Target {
        sector: random.below(SERVED as usize) as u32,
        heard: any_heard(random),
        finished: random.one_in(2),
    });
    let targets = targets.collect();
    let heard = any_heard(random);
    let record = record_with(heard, random);
    let calls = (0..random.between(3, 8)).map(|_| {
        if random.one_in(3) {
            let sector = ALIKE;
            return (Call::Fetch { sector }, any_lent(ALIKE as usize, random));
        }
        let call = Steps::OF_ALL.draw_by(FITTER, random).call;
        let area = random.choose(&[ALIKE as usize, 7]);
        (call, any_lent(area, random))
    });
    Stage {
        targets,
        record,
        calls: calls.collect(),
    }
}

/// Brings a sector to where it has to stand.
fn settle(side: &mut Side, target: &Target) {
    let Target {
        sector,
        heard,
        finished,
    } = *target;
    let elsewhere = side.seat(sector).heard != heard;
    if elsewhere || (side.is_finished(sector) && !finished) || side.random.one_in(2) {
        let record = record_with(heard, &mut side.random);
        side.load(sector, &record);
    }
    side.go_on(sector, finished);
}

/// Whether a step leaves a job that is not at its end there.
fn leaves_unfinished(desk: &Desk, step: &Step) -> bool {
    match step.call {
        Call::Run { sector, request } if sector < 8 => {
            let seat = desk.seats[sector as usize];
            seat.job.turn == 120 || seat.job.turn + u32::from(request.min(seat.left)) < 120
        }
        _ => true,
    }
}

fn agreed(desk: &Desk) -> Agreed {
    let finished = desk.seats.map(|seat| seat.job.turn == 120);
    (heard_bytes(desk), finished)
}

fn answered(both: &BothDesk, call: &Call, reply: DeskReply) -> Answered {
    let fetched = call.is_fetch() && reply.number == 0;
    let fetched = fetched.then(|| both.fetched().to_vec());
    (without_desk(reply), fetched)
}

/// Goes through all stages. Between the fitter's calls of one stage nobody else's loads a sector, or
/// brings its job to the end.
fn history(
    case: Case,
    words: &[[i32; AREA_WORDS]; 2],
    stages: &[Stage],
    seen: &mut Seen,
) -> History {
    let mut side = Side::new(case, SERVED, seen);
    side.both.fill_area(ALIKE as usize, &words[0]);
    side.both.fill_area(7, &words[1]);
    let mut history = History::default();
    for stage in stages {
        side.load(ALIKE, &stage.record);
        side.go_on(ALIKE, true);
        for target in &stage.targets {
            settle(&mut side, target);
        }
        for (call, lent) in &stage.calls {
            if side.random.one_in(3) {
                side.stir(FITTER, leaves_unfinished);
            }
            let agreed = agreed(side.both.desk());
            let reply = side.both.call(FITTER, call, *lent);
            let answered = answered(&side.both, call, reply);
            history.views.push((agreed, answered));
        }
        history.stands.push(side.stand());
    }
    history
}

/// Words that a Fetch accepts, or any.
fn any_words(random: &mut Random) -> [i32; AREA_WORDS] {
    if random.one_in(2) {
        return [0; AREA_WORDS];
    }
    arbitrary_area(random)
}

#[test]
fn a_fitter_sees_no_count_and_nothing_that_waits() {
    let (mut seen, mut apart) = (Seen::default(), Apart::default());
    let (mut results, mut refused) = (0, 0);
    for number in 0..PAIRS {
        let case = |way| Case::of_words("what a fitter sees", 1231, 3 * number + way);
        let mut random = case(2).random();
        let words = [any_words(&mut random), any_words(&mut random)];
        let count = random.between(2, 4);
        let stages: Vec<Stage> = (0..count).map(|_| any_stage(&mut random)).collect();
        let [one, other] = [0, 1].map(|way| history(case(way), &words, &stages, &mut seen));
        assert_eq!(one.views.len(), other.views.len());
        for ((agreed, answered), (same, again)) in one.views.iter().zip(&other.views) {
            assert_eq!(agreed, same, "heard bytes and ends agree, pair {number}");
            assert_eq!(answered, again, "a fitter's answers, pair {number}");
            results += u64::from(answered.1.is_some());
            refused += u64::from(answered.0.number != 0);
        }
        for (one, other) in one.stands.iter().zip(&other.stands) {
            apart.count(one, other);
        }
    }
    seen.print(&format!(
        "{PAIRS} pairs of histories for a fitter, {results} results and {refused} refused calls \
         alike; {apart}"
    ));
    assert!(results > PAIRS && refused > PAIRS, "few calls");
    apart.assert_most();
    assert!(apart.made > apart.places * 2 / 3, "many jobs were alike");
}

/// Whether test 6 passes, if test 5 does.
fn passes(job: Job) -> Option<bool> {
    let exists = job.turn <= 120 && job.made <= job.turn;
    exists.then_some(job.turn == 120)
}

/// A job of which the same tests pass.
fn job_like(job: Job, random: &mut Random) -> Job {
    let mut other = job_or_none(random);
    while passes(other) != passes(job) {
        other = job_or_none(random);
    }
    other
}

/// Desks with the same heard bytes, at which the same jobs pass tests 5 and 6, and anything else, with
/// the same area and a buffer of the same length.
#[test]
fn a_fitter_sees_no_count_of_made_up_desks() {
    let (mut seen, mut results) = (Seen::default(), 0);
    for number in 0..DESKS {
        let case = |way| Case::of_words("what a fitter sees, made up", 1232, 2 * number + way);
        let mut random = case(0).random();
        let (mut one, mut other) = (any_desk(&mut random), any_desk(&mut random));
        for (seat, like) in one.seats.iter_mut().zip(&mut other.seats) {
            if random.one_in(2) {
                seat.job = Job::new(120, random.below(121) as u32);
            }
            (like.heard, like.job) = (seat.heard, job_like(seat.job, &mut random));
        }
        let call = Steps::OF_ALL.draw_by(FITTER, &mut random).call;
        let (words, lent) = (any_words(&mut random), any_lent(0, &mut random));
        let mut view = |way, desk| {
            let mut both = BothDesk::new(case(way), &mut seen);
            both.fill_area(0, &words);
            let reply = both.call_handed(FITTER, desk, &call, lent);
            answered(&both, &call, reply)
        };
        let (answered, again) = (view(0, &one), view(1, &other));
        assert_eq!(answered, again, "a fitter's answers, pair {number}");
        results += u64::from(answered.1.is_some());
    }
    seen.print(&format!(
        "{DESKS} pairs of made-up desks for a fitter, {results} results alike"
    ));
    seen.assert_numbers(&[3, 5, 6, 7, 8, 12, 15]);
    assert!(results > DESKS / 16, "few results");
}
