//! Every refusal number at every call that can give it. Each test goes through all combinations
//! of good and bad arguments, so that any set of a call's tests fails together somewhere and the
//! order of the tests decides.

mod common;

use std::collections::BTreeSet;
use std::ops::RangeInclusive;

use common::{Both, Case};
use reference::area::AREA_WORDS;
use reference::cases::Kind;
use reference::job::Job;
use reference::matrix::{Complex, Matrix};
use reference::random::Random;
use reference::records::write_matrix;
use reference::replies::RunReply;

const AREA_LENGTHS: [usize; 5] = [0, 1, 511, 512, 513];
const BUFFER_LENGTHS: [usize; 5] = [0, 1, 2048, 2049, 2050];
const ALLOWANCES: [u16; 7] = [0, 1, 2, 119, 120, 121, 65535];

/// Every turn number of a job that exists, and the first beyond.
const TURN_NUMBERS: RangeInclusive<u32> = 0..=121;

/// More turns than there are. Some of these are small or negative in a narrower number.
const FAR_BEYOND: [u32; 8] = [122, 128, 255, 256, 1 << 16, 1 << 31, u32::MAX - 1, u32::MAX];

/// For each turn number as many turns made, one fewer and one more, none, and far too many.
fn jobs() -> impl Iterator<Item = Job> {
    TURN_NUMBERS.chain(FAR_BEYOND).flat_map(|turn| {
        let around = [0, turn.saturating_sub(1), turn, turn.saturating_add(1)];
        let made: BTreeSet<u32> = around.into_iter().chain(FAR_BEYOND).collect();
        made.into_iter().map(move |made| Job { turn, made })
    })
}

/// Whether test 5 fails.
fn is_no_job(job: Job) -> bool {
    job.turn > 120 || job.made > job.turn
}

/// Makes calls on fresh memory, one case each, and gathers the numbers they answer and the sets of
/// tests that fail.
struct Numbers {
    test: &'static str,
    cases: u64,
    seen: BTreeSet<u8>,
    sets: BTreeSet<Vec<u8>>,
}

impl Numbers {
    fn new(test: &'static str) -> Self {
        Numbers {
            test,
            cases: 0,
            seen: BTreeSet::new(),
            sets: BTreeSet::new(),
        }
    }

    /// The number that is due: that of the first test that fails, of all in the order in which they
    /// are made.
    fn due(&mut self, tests: &[(u8, bool)]) -> u8 {
        let failing = tests.iter().filter(|(_, fails)| *fails);
        let failing: Vec<u8> = failing.map(|(number, _)| *number).collect();
        let first = failing.first().copied().unwrap_or(0);
        self.sets.insert(failing);
        first
    }

    fn call(&mut self, record: &[u8], words: usize, bytes: usize, call: impl Fn(&mut Both) -> u8) {
        let mut both = Both::new(Case::new(self.test, 301, self.cases, record));
        both.lend(words, bytes);
        self.seen.insert(call(&mut both));
        self.cases += 1;
    }

    fn assert_seen(&self, numbers: &[u8]) {
        assert_eq!(self.seen, numbers.iter().copied().collect());
        println!("\n{}: {} calls, numbers {numbers:?}", self.test, self.cases);
    }
}

/// Records of matrices that no antenna is heard with: zeros, and hum on the diagonal with
/// anything around it.
fn unheard_records() -> [Vec<u8>; 2] {
    let zeros = Matrix::from_fn(|_, _| Complex::ZERO);
    let hum = Kind::FullRange.matrix(&mut Random::new(305));
    [zeros, hum.with_diagonal(|_| 16)].map(|matrix| write_matrix(&matrix).to_vec())
}

/// Good and bad matrix records: empty, too short, too long, of the wrong kind, with no antenna heard.
fn matrix_records() -> Vec<Vec<u8>> {
    let good = write_matrix(&Kind::FullRange.matrix(&mut Random::new(302))).to_vec();
    let mut records = vec![vec![], vec![0], vec![1], vec![2], vec![1; 2049]];
    let [zeros, hum] = unheard_records();
    for record in [good, zeros, hum] {
        let mut wrong_kind = record.clone();
        wrong_kind[0] = 2;
        let mut long = record.clone();
        long.push(0);
        records.extend([record[..256].to_vec(), long, wrong_kind, record]);
    }
    records
}

/// The words of a worked matrix, and the same with a word under the diagonal, and with a negative
/// word on it.
fn result_areas() -> [[i32; AREA_WORDS]; 3] {
    let record = write_matrix(&Kind::FullRange.matrix(&mut Random::new(303)));
    let mut both = Both::new(Case::new("result areas", 303, 0, &record));
    both.whole(&record);
    let good = both.area().to_words();
    let (mut under, mut negative) = (good, good);
    under[15 * 32 + 14] = 1;
    negative[14 * 32 + 14] = -1;
    [good, under, negative]
}

/// Good and bad result records.
fn result_records() -> Vec<Vec<u8>> {
    let mut records = vec![vec![], vec![1], vec![2], vec![2; 257]];
    let mut good = vec![0; 2049];
    good[0] = 2;
    let mut under = good.clone();
    under[1 + 4 * 16 + 3] = 1;
    let mut negative = good.clone();
    negative[1..5].fill(0xFF);
    for record in [good, under, negative] {
        let mut wrong_kind = record.clone();
        wrong_kind[0] = 1;
        let mut long = record.clone();
        long.push(0);
        records.extend([record[..2048].to_vec(), long, wrong_kind, record]);
    }
    records
}

#[test]
fn load() {
    let mut numbers = Numbers::new("Load");
    for record in matrix_records() {
        for words in AREA_LENGTHS {
            numbers.call(&record, words, 2049, |both| both.load(&record).number);
        }
    }
    numbers.assert_seen(&[0, 1, 2, 3, 4]);
}

#[test]
fn run() {
    let mut numbers = Numbers::new("Run");
    for job in jobs() {
        for allowance in ALLOWANCES {
            for words in AREA_LENGTHS {
                let due = numbers.due(&[(3, words < 512), (5, is_no_job(job))]);
                let refused = RunReply {
                    number: due,
                    job,
                    ..RunReply::default()
                };
                numbers.call(&[], words, 2049, |both| {
                    let reply = both.run(job, allowance);
                    both.require(reply.number == due, "another number was due");
                    both.require(due == 0 || reply == refused, "another job was due");
                    reply.number
                });
            }
        }
    }
    numbers.assert_seen(&[0, 3, 5]);
    assert_eq!(numbers.sets.len(), 4, "not every set of tests failed");
}

#[test]
fn fetch() {
    let mut numbers = Numbers::new("Fetch");
    for (area, is_damaged) in result_areas().into_iter().zip([false, true, true]) {
        for job in jobs() {
            for words in AREA_LENGTHS {
                for bytes in BUFFER_LENGTHS {
                    let due = numbers.due(&[
                        (3, words < 512),
                        (5, is_no_job(job)),
                        (6, job.turn < 120),
                        (7, bytes < 2049),
                        (8, is_damaged),
                    ]);
                    numbers.call(&[], words, bytes, |both| {
                        both.fill_area(&area);
                        let number = both.fetch(job).number;
                        both.require(number == due, "another number was due");
                        number
                    });
                }
            }
        }
    }
    numbers.assert_seen(&[0, 3, 5, 6, 7, 8]);
    assert_eq!(numbers.sets.len(), 32, "not every set of tests failed");
}

/// Load answers the job (0, 0) and Read (120, 0), and (0, 0) where it refuses.
#[test]
fn jobs_of_load_and_read() {
    let mut numbers = Numbers::new("Jobs of Load and Read");
    for words in AREA_LENGTHS {
        for record in matrix_records() {
            numbers.call(&record, words, 2049, |both| {
                let reply = both.load(&record);
                both.require(reply.job == Job::new(0, 0), "Load answered another job");
                both.require(reply.number == 0 || reply.heard == 0, "Load answered more");
                reply.number
            });
        }
        for record in result_records() {
            numbers.call(&record, words, 2049, |both| {
                let reply = both.read(&record);
                let turn = if reply.number == 0 { 120 } else { 0 };
                both.require(reply.job == Job::new(turn, 0), "Read answered another job");
                reply.number
            });
        }
    }
    numbers.assert_seen(&[0, 1, 2, 3, 4, 8]);
}

/// Fetch believes the words of the area and not the turn number alone.
#[test]
fn fetch_at_120_of_an_area_that_is_not_worked_to_the_end() {
    let record = write_matrix(&Kind::FullRange.matrix(&mut Random::new(304)));
    let mut both = Both::new(Case::new("unfinished areas", 304, 0, &record));
    let loaded = both.load(&record).job;
    let finished = Job::new(120, 120);
    assert_eq!(both.fetch(finished).number, 8);
    let job = both.run(loaded, 119).job;
    assert_eq!(both.fetch(finished).number, 8);
    both.run(job, 1);
    assert_eq!(both.fetch(finished).number, 0);
}

#[test]
fn read() {
    let mut numbers = Numbers::new("Read");
    for record in result_records() {
        for words in AREA_LENGTHS {
            numbers.call(&record, words, 2049, |both| both.read(&record).number);
        }
    }
    numbers.assert_seen(&[0, 1, 2, 3, 8]);
}

#[test]
fn whole() {
    let mut numbers = Numbers::new("Whole");
    for record in matrix_records() {
        for words in AREA_LENGTHS {
            for bytes in BUFFER_LENGTHS {
                numbers.call(&record, words, bytes, |both| both.whole(&record).number);
            }
        }
    }
    numbers.assert_seen(&[0, 1, 2, 3, 4, 7]);
}

/// Number 4 has the last test of both calls: where another one fails, too, that one decides.
#[test]
fn number_4_comes_after_all_others() {
    let mut sets = 0;
    for record in unheard_records() {
        for set in 0..16 {
            let [kind, length, area, buffer] = [0, 1, 2, 3].map(|test| set >> test & 1 == 1);
            let mut record = record.clone();
            if kind {
                record[0] = 2;
            }
            record.truncate(if length { 256 } else { 257 });
            let tests = [(1, kind), (2, length), (3, area), (7, buffer), (4, true)];
            let first = |call: &[u8]| {
                let mut tests = tests.into_iter();
                tests.find(|(number, fails)| *fails && call.contains(number))
            };
            let mut both = Both::new(Case::new("number 4", 306, set, &record));
            both.lend(512 - usize::from(area), 2049 - usize::from(buffer));
            let load = both.load(&record).number;
            assert_eq!(Some((load, true)), first(&[1, 2, 3, 4]));
            let whole = both.whole(&record).number;
            assert_eq!(Some((whole, true)), first(&[1, 2, 3, 7, 4]));
            sets += 1;
        }
    }
    assert_eq!(sets, 32);
}
