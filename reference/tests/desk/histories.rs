//! Histories of calls from a new desk on, by all roles and by such as are none, each handed the desk
//! that the last one answered.

use crate::allowed;
use crate::book::Book;
use crate::common::desk::{BothDesk, Seen};
use crate::common::Case;
use crate::early;
use crate::rules::OtherAnswers;
use crate::steps::{Areas, Steps};

/// Histories in which each sector has its own area, and such in which any area is lent.
const OWN_AREAS: u64 = 5_000;
const ANY_AREAS: u64 = 2_500;

/// Every number that the calls can give.
const NUMBERS: [u8; 12] = [1, 2, 3, 4, 5, 6, 7, 8, 12, 13, 14, 15];

/// How often other rules would have come to something else.
struct Noticed {
    rules: OtherAnswers,
    early: early::OtherAnswers,
    allowed: allowed::OtherAnswers,
}

/// Makes the calls of one history, and holds each to the laws and to the other rules.
fn make_history(case: Case, areas: Areas, seen: &mut Seen, noticed: &mut Noticed) {
    let mut random = case.random();
    let steps = Steps::of_some(areas, &mut random);
    let mut both = BothDesk::new(case, seen);
    let mut book = Book::new(&both, areas);
    let most = if steps.brisk { 125 } else { 70 };
    let count = random.between(13, most) as usize;
    for step in steps.history(count, &mut random) {
        let handed = step.handed(both.desk());
        let reply = step.make(&mut both);
        noticed.rules.look(&handed, &step, &reply);
        noticed.early.look(&handed, &step, &reply);
        noticed.allowed.look(&handed, &step, &reply);
        book.enter(&both, &handed, &step, &reply);
    }
}

fn make_histories(test: &'static str, seed: u64, areas: Areas, histories: u64) -> Seen {
    let mut seen = Seen::default();
    let mut noticed = Noticed {
        rules: OtherAnswers::NONE,
        early: early::OtherAnswers::NONE,
        allowed: allowed::OtherAnswers::NONE,
    };
    for number in 0..histories {
        let case = Case::of_words(test, seed, number);
        make_history(case, areas, &mut seen, &mut noticed);
    }
    seen.print(&format!("{test}, {histories} of them"));
    noticed.rules.print_and_require_all_rules(test);
    noticed.early.print_and_require_all_rules(test);
    noticed.allowed.print_and_require_all_rules(test);
    seen.assert_numbers(&NUMBERS);
    assert!(seen.worked > histories / 20, "few were worked to the end");
    let matrices = &seen.matrices;
    assert!(matrices.replaced > histories / 2, "few had to give way");
    assert!(matrices.brought_in > histories / 40, "few were brought in");
    let left_waiting = matrices.left_waiting;
    assert!(left_waiting > histories / 40, "few were left waiting");
    seen
}

/// A sector is as if it had run alone with the turns granted.
#[test]
fn sectors_with_their_own_areas_are_as_if_alone() {
    let seen = make_histories("histories, own areas", 1101, Areas::Own, OWN_AREAS);
    let matrices = &seen.matrices;
    assert!(matrices.fetched > OWN_AREAS / 8, "few results in step");
    let brought_in = matrices.fetched_brought_in;
    assert!(
        brought_in > OWN_AREAS / 30,
        "few results of those brought in"
    );
    assert!(matrices.fetched_again > OWN_AREAS / 30, "few fetched again");
    let by_fitters = matrices.fetched_by_fitters;
    assert!(by_fitters > OWN_AREAS / 8, "few fetched by fitters");
}

#[test]
fn calls_that_are_lent_any_area_agree() {
    make_histories("histories, any areas", 1102, Areas::Any, ANY_AREAS);
}
