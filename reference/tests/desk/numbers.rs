//! Every refusal number with every set of failing tests, so that the order of the tests decides.

use std::collections::BTreeSet;

use reference::area::AREA_WORDS;
use reference::cases::Kind;
use reference::desk::Desk;
use reference::job::Job;
use reference::random::Random;
use reference::records::write_matrix;

use crate::common::desk::role::all_roles;
use crate::common::desk::{BothDesk, Call, Lent, Seen};
use crate::common::Case;
use crate::steps::{desk_of, desk_waiting, BEYOND};

/// Ways to pass a test, first, and to fail it.
const WORDS: [usize; 5] = [512, 513, 0, 1, 511];
const BYTES: [usize; 5] = [2049, 2050, 0, 1, 2048];
const KINDS: [u8; 5] = [1, 0, 2, 0x81, 0xFF];
const LENGTHS: [usize; 6] = [257, 0, 1, 256, 258, 2049];

const REQUESTS: [u16; 4] = [0, 1, 120, u16::MAX];
const LEFT: [u16; 5] = [0, 1, 119, 120, u16::MAX];

/// Jobs that exist, and others. They stand at every seat of a desk, so that a sector above 7 fails
/// the same tests as the others, whichever of them it could be taken for.
const JOBS: [Job; 14] = [
    Job::new(0, 0),
    Job::new(5, 5),
    Job::new(119, 0),
    Job::new(119, 119),
    Job::new(120, 0),
    Job::new(120, 120),
    Job::new(0, 1),
    Job::new(5, 6),
    Job::new(119, u32::MAX),
    Job::new(120, 121),
    Job::new(121, 0),
    Job::new(256, 5),
    Job::new(1 << 31, 1 << 31),
    Job::new(u32::MAX, 0),
];

/// Whether test 5 fails.
fn is_no_job(job: Job) -> bool {
    job.turn > 120 || job.made > job.turn
}

/// Sectors of a hub, and others.
fn sectors() -> impl Iterator<Item = u32> + Clone {
    [0, 3, 7].into_iter().chain(BEYOND)
}

/// Makes calls and gathers the sets of tests that fail.
struct Numbers<'a> {
    both: BothDesk<'a>,
    sets: BTreeSet<Vec<u8>>,
    calls: usize,
}

impl<'a> Numbers<'a> {
    fn new(test: &'static str, seed: u64, seen: &'a mut Seen) -> Self {
        Numbers {
            both: BothDesk::new(Case::of_words(test, seed, 0), seen),
            sets: BTreeSet::new(),
            calls: 0,
        }
    }

    /// Makes a call of which these tests fail, of all in the order in which they are made: by one who
    /// may not make it, each time another one, and then by everybody who may.
    fn call<const N: usize>(
        &mut self,
        desk: &Desk,
        call: &Call,
        lent: Lent,
        tests: [(u8, bool); N],
    ) {
        let (allowed, others): (Vec<u32>, Vec<u32>) =
            all_roles().partition(|role| call.is_allowed_to(*role));
        let other = others[self.calls % others.len()];
        self.calls += 1;
        let refused = [&[(15, true)], &tests[..]].concat();
        self.call_by(other, desk, call, lent, &refused);
        for role in allowed {
            self.call_by(role, desk, call, lent, &tests);
        }
    }

    /// Makes a call by one role. It answers the first test that fails, or is accepted.
    fn call_by(&mut self, role: u32, desk: &Desk, call: &Call, lent: Lent, tests: &[(u8, bool)]) {
        let failing = tests.iter().filter(|(_, fails)| *fails);
        let failing: Vec<u8> = failing.map(|(number, _)| *number).collect();
        let due = failing.first().copied().unwrap_or(0);
        let reply = self.both.call_handed(role, desk, call, lent);
        let right = reply.number == due;
        self.both.require(right, &format!("failing {failing:?}"));
        self.sets.insert(failing);
    }

    /// Every set of so many tests has failed, that of the role among them.
    fn assert_all_sets(&self, tests: u32) {
        assert_eq!(self.sets.len(), 1 << tests, "not every set of tests failed");
    }
}

/// A matrix record with its kind, its length and its antennas in one of the ways.
fn matrix_record(kind: u8, length: usize, heard: bool) -> Vec<u8> {
    let matrix = Kind::FullRange.matrix(&mut Random::new(1122));
    let matrix = matrix.with_diagonal(|_| if heard { 17 } else { 16 });
    let mut record = write_matrix(&matrix).to_vec();
    record[0] = kind;
    record.resize(length, 9);
    record
}

/// Desks at which a matrix is loaded at once, and such at which it has to wait: the tests are those of
/// Load at all of them.
fn desks_to_hand_in() -> [Desk; 4] {
    let [finished, beyond, unfinished] =
        [(120, 7), (121, 0), (5, 6)].map(|(turn, made)| desk_of(Job { turn, made }, 0));
    [finished, beyond, unfinished, desk_waiting(finished)]
}

#[test]
fn a_refused_hand_in_answers_the_first_test_that_fails() {
    let mut seen = Seen::default();
    let mut numbers = Numbers::new("sets of tests at a hand-in", 1121, &mut seen);
    let kinds = KINDS.into_iter();
    for (kind, length) in kinds.flat_map(|kind| LENGTHS.map(|n| (kind, n))) {
        for heard in [true, false] {
            let record = matrix_record(kind, length, heard);
            for (sector, words) in sectors().flat_map(|sector| WORDS.map(|n| (sector, n))) {
                let lent = Lent {
                    words,
                    ..Lent::area(0)
                };
                let record = record.clone();
                let tests = [
                    (12, sector > 7),
                    (1, kind != 1 || length == 0),
                    (2, length != 257),
                    (3, words < AREA_WORDS),
                    (4, !heard),
                ];
                let call = Call::HandIn { sector, record };
                for desk in desks_to_hand_in() {
                    numbers.call(&desk, &call, lent, tests);
                }
            }
        }
    }
    numbers.assert_all_sets(6);
    seen.print("Sets of tests at a hand-in");
}

#[test]
fn a_refused_run_answers_the_first_test_that_fails() {
    let mut seen = Seen::default();
    let mut numbers = Numbers::new("sets of tests at Run", 1123, &mut seen);
    for (job, left) in JOBS
        .into_iter()
        .flat_map(|job| LEFT.map(|left| (job, left)))
    {
        for (sector, words) in sectors().flat_map(|sector| WORDS.map(|n| (sector, n))) {
            for request in REQUESTS {
                let lent = Lent {
                    words,
                    ..Lent::area(0)
                };
                let tests = [
                    (12, sector > 7),
                    (3, words < AREA_WORDS),
                    (5, is_no_job(job)),
                    (13, request > 0 && job.turn < 120 && left == 0),
                ];
                let call = Call::Run { sector, request };
                numbers.call(&desk_of(job, left), &call, lent, tests);
            }
        }
    }
    numbers.assert_all_sets(5);
    seen.print("Sets of tests at Run");
}

/// Words that Fetch accepts, with one under the diagonal, and with a negative one on it.
fn areas() -> [[i32; AREA_WORDS]; 3] {
    let (mut under, mut negative) = ([0; AREA_WORDS], [0; AREA_WORDS]);
    under[15 * 32 + 14] = 1;
    negative[14 * 32 + 14] = -1;
    [[0; AREA_WORDS], under, negative]
}

/// Whether a matrix waits or none, which the operator's Fetch brings in, if it succeeds, after that of
/// a fitter did not.
#[test]
fn a_refused_fetch_answers_the_first_test_that_fails() {
    let mut seen = Seen::default();
    let mut numbers = Numbers::new("sets of tests at Fetch", 1124, &mut seen);
    for (area, words) in areas().iter().enumerate() {
        numbers.both.fill_area(area, words);
    }
    for (job, bytes) in JOBS.into_iter().flat_map(|job| BYTES.map(|n| (job, n))) {
        for (sector, words) in sectors().flat_map(|sector| WORDS.map(|n| (sector, n))) {
            for area in 0..3 {
                let lent = Lent { area, words, bytes };
                let tests = [
                    (12, sector > 7),
                    (3, words < AREA_WORDS),
                    (5, is_no_job(job)),
                    (6, job.turn < 120),
                    (7, bytes < 2049),
                    (8, area > 0),
                ];
                let call = Call::Fetch { sector };
                let desk = desk_of(job, 0);
                numbers.call(&desk, &call, lent, tests);
                numbers.call(&desk_waiting(desk), &call, lent, tests);
                numbers.both.fill_area(area, &areas()[area]);
            }
        }
    }
    numbers.assert_all_sets(7);
    seen.print("Sets of tests at Fetch");
}

/// Neither looks at a job, at a share or at what is left, and a round begins at any desk.
#[test]
fn heard_tests_role_and_sector_and_begin_the_role_alone() {
    let mut seen = Seen::default();
    let mut numbers = Numbers::new("sets of tests at Heard", 1125, &mut seen);
    for (job, left) in JOBS
        .into_iter()
        .flat_map(|job| LEFT.map(|left| (job, left)))
    {
        let desk = desk_of(job, left);
        for sector in sectors() {
            let call = Call::Heard { sector };
            numbers.call(&desk, &call, Lent::area(0), [(12, sector > 7)]);
        }
        numbers.call(&desk, &Call::Begin, Lent::area(0), []);
    }
    numbers.assert_all_sets(2);
    seen.print("Sets of tests at Heard, and Begin");
}

/// Shares of 120 and less in total, and of more, at any desk.
#[test]
fn refused_shares_answer_the_first_test_that_fails() {
    let mut seen = Seen::default();
    let mut numbers = Numbers::new("sets of tests at Set shares", 1126, &mut seen);
    let single = |share| [0, 0, 0, share, 0, 0, 0, 0];
    let lists = [15, 0, 16, 8_192, u16::MAX].map(|share| [share; 8]);
    for shares in lists.into_iter().chain([120, 121, 256].map(single)) {
        let total: u32 = shares.iter().map(|share| u32::from(*share)).sum();
        for (job, left) in JOBS.into_iter().flat_map(|job| LEFT.map(|n| (job, n))) {
            let call = Call::SetShares { shares };
            let tests = [(14, total > 120)];
            numbers.call(&desk_of(job, left), &call, Lent::area(0), tests);
        }
    }
    numbers.assert_all_sets(2);
    seen.print("Sets of tests at Set shares");
}
