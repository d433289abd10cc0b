//! What a viewer is answered goes by its own calls and by the heard bytes, whatever the results are:
//! two histories that agree in these, and in nothing else, answer it the same.

use reference::desk::{DeskReply, SECTORS};
use reference::random::Random;

use crate::common::desk::role::{FITTER, VIEWER};
use crate::common::desk::{BothDesk, Call, Lent, Seen};
use crate::common::words::arbitrary_area;
use crate::common::Case;
use crate::made_up::any_desk;
use crate::pairs::{any_heard, heard_bytes, record_with, without_desk, Apart, Side, Stand};
use crate::steps::{any_lent, Steps};

/// Pairs of histories, and of desks that a host made up.
const PAIRS: u64 = 400;
const DESKS: u64 = 3_000;

/// What both histories of a pair have: sectors that are loaded, each with the heard byte that it then
/// has, and calls of the viewer afterwards.
struct Stage {
    loads: Vec<(u32, u8)>,
    calls: Vec<Call>,
}

/// What became of one history: of each call of the viewer the heard bytes before and the reply without
/// the desk, and what is not the viewer's, the results that a fitter fetched and after each stage the
/// rest.
#[derive(Default)]
struct History {
    views: Vec<([u8; SECTORS], DeskReply)>,
    results: Vec<Vec<u8>>,
    stands: Vec<Stand>,
}

fn any_stage(served: u32, random: &mut Random) -> Stage {
    let loads = (0..random.between(1, 3)).map(|_| {
        let sector = random.below(served as usize) as u32;
        (sector, any_heard(random))
    });
    let loads = loads.collect();
    let steps = Steps {
        served,
        ..Steps::OF_ALL
    };
    let calls = (0..random.between(2, 6)).map(|_| steps.draw_by(VIEWER, random).call);
    Stage {
        loads,
        calls: calls.collect(),
    }
}

/// The result of a sector, if a fitter can fetch it.
fn fetched(side: &mut Side, sector: u32) -> Option<Vec<u8>> {
    let lent = Lent::area(sector as usize);
    let reply = side.both.call(FITTER, &Call::Fetch { sector }, lent);
    (reply.number == 0).then(|| side.both.fetched().to_vec())
}

/// Goes through all stages. Between the viewer's calls of one stage nobody else's loads a sector.
fn history(case: Case, served: u32, stages: &[Stage], seen: &mut Seen) -> History {
    let mut side = Side::new(case, served, seen);
    let mut history = History::default();
    for Stage { loads, calls } in stages {
        for (sector, heard) in loads {
            let record = record_with(*heard, &mut side.random);
            side.load(*sector, &record);
            let to_the_end = side.random.one_in(2);
            side.go_on(*sector, to_the_end);
            side.stir(VIEWER, |_, _| true);
            history.results.extend(fetched(&mut side, *sector));
        }
        for call in calls {
            if side.random.one_in(3) {
                side.stir(VIEWER, |_, _| true);
            }
            let heard = heard_bytes(side.both.desk());
            let area = side.random.below(SECTORS);
            let lent = any_lent(area, &mut side.random);
            let reply = side.both.call(VIEWER, call, lent);
            history.views.push((heard, without_desk(reply)));
        }
        history.stands.push(side.stand());
    }
    history
}

#[test]
fn a_viewer_sees_only_heard_bytes() {
    let (mut seen, mut apart) = (Seen::default(), Apart::default());
    let (mut bytes, mut refused, mut results) = (0, 0, 0);
    for number in 0..PAIRS {
        let case = |way| Case::of_words("what a viewer sees", 1221, 3 * number + way);
        let mut random = case(2).random();
        let served = random.between(1, 8) as u32;
        let count = random.between(2, 5);
        let stages: Vec<Stage> = (0..count).map(|_| any_stage(served, &mut random)).collect();
        let [one, other] = [0, 1].map(|way| history(case(way), served, &stages, &mut seen));
        assert_eq!(one.views.len(), other.views.len());
        for ((heard, reply), (same, again)) in one.views.iter().zip(&other.views) {
            assert_eq!(heard, same, "the heard bytes agree, pair {number}");
            assert_eq!(reply, again, "a viewer's replies, pair {number}");
            bytes += u64::from(reply.number == 0 && reply.heard != 0);
            refused += u64::from(reply.number == 15);
        }
        for (one, other) in one.stands.iter().zip(&other.stands) {
            apart.count(one, other);
        }
        results += u64::from(one.results != other.results);
    }
    seen.print(&format!(
        "{PAIRS} pairs of histories for a viewer, {bytes} heard bytes above 0 and {refused} calls \
         refused with 15 alike; {results} pairs apart in results, and {apart}"
    ));
    assert!(bytes > 2 * PAIRS && refused > 2 * PAIRS, "few calls");
    assert!(results > PAIRS * 3 / 4, "the same results in many pairs");
    apart.assert_most();
    assert!(apart.jobs > apart.places * 3 / 4, "many jobs were alike");
}

/// Desks with the same heard bytes and anything else, with any areas and buffers.
#[test]
fn a_viewer_sees_only_heard_bytes_of_made_up_desks() {
    let (mut seen, mut bytes) = (Seen::default(), 0);
    for number in 0..DESKS {
        let case = |way| Case::of_words("what a viewer sees, made up", 1222, 2 * number + way);
        let mut random = case(0).random();
        let (one, mut other) = (any_desk(&mut random), any_desk(&mut random));
        for (seat, same) in other.seats.iter_mut().zip(&one.seats) {
            seat.heard = same.heard;
        }
        let call = Steps::OF_ALL.draw_by(VIEWER, &mut random).call;
        let mut view = |way, desk| {
            let mut both = BothDesk::new(case(way), &mut seen);
            both.fill_area(0, &arbitrary_area(&mut random));
            let lent = any_lent(0, &mut random);
            without_desk(both.call_handed(VIEWER, desk, &call, lent))
        };
        let (reply, again) = (view(0, &one), view(1, &other));
        assert_eq!(reply, again, "a viewer's replies, pair {number}");
        bytes += u64::from(reply.heard != 0);
    }
    seen.print(&format!(
        "{DESKS} pairs of made-up desks for a viewer, {bytes} heard bytes above 0 alike"
    ));
    seen.assert_numbers(&[12, 15]);
    assert!(bytes > DESKS / 4, "few heard bytes");
}
