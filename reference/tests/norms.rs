//! Areas whose columns are just as long as an implementation might allow for some faster way of
//! working, or just longer.

mod common;

use common::{Both, Case};
use reference::area::{WorkArea, AREA_WORDS, COLUMNS, ROWS};
use reference::clamps::Clamps;
use reference::job::Job;
use reference::random::Random;
use reference::rotation::GAIN;
use reference::schedule::{self, Turn, TURNS};

const AREAS_PER_NORM: u64 = 400;

/// Sums of squares at which an implementation might change its way of working.
const NORMS: [u64; 7] = [
    // The longest column of a matrix in work, without and with room for rounding errors.
    1 << 60,
    (1 << 60) + (1 << 44),
    // Where the sums of a rotation, before the gain is taken back, outgrow 32 and 33 bits.
    4 * SQUARE_OF_GAIN,
    16 * SQUARE_OF_GAIN,
    // Where rotated words start to be clamped.
    (1 << 62) - (1 << 36),
    (1 << 62) - (1 << 32),
    1 << 62,
];

const SQUARE_OF_GAIN: u64 = (GAIN * GAIN) as u64;

/// Which columns lie just outside of a norm; the others lie just inside.
#[derive(Clone, Copy)]
enum Outside {
    None,
    Leading,
    OneOther,
    AllButOne,
    All,
}

impl Outside {
    const ALL: [Outside; 5] = [
        Outside::None,
        Outside::Leading,
        Outside::OneOther,
        Outside::AllButOne,
        Outside::All,
    ];

    fn has(self, column: usize, leading: usize, chosen: usize) -> bool {
        match self {
            Outside::None => false,
            Outside::Leading => column == leading,
            Outside::OneOther => column == chosen,
            Outside::AllButOne => column != chosen,
            Outside::All => true,
        }
    }
}

/// Words whose squares add up to the norm or just under it, or to just above it.
fn words_at<const N: usize>(norm: u64, outside: bool, random: &mut Random) -> [i32; N] {
    loop {
        let (mut words, mut rest) = ([0; N], norm);
        let last = random.below(N);
        for word in &mut words[1..] {
            *word = random_part(rest, random);
            rest -= (*word * *word) as u64;
        }
        words[0] = rest.isqrt() as i64 + i64::from(outside);
        words.swap(0, last);
        let signed = words.map(|word| if random.one_in(2) { word } else { -word });
        // At the larger norms a word may need more than 32 bits.
        if signed.iter().all(|&word| i32::try_from(word).is_ok()) {
            return signed.map(|word| word as i32);
        }
    }
}

/// A word whose square is at most `rest`. 2^22 is among the choices because 2^60 + 2^44 is exactly
/// the sum of the squares of 2^30 and 2^22.
fn random_part(rest: u64, random: &mut Random) -> i64 {
    let end = rest.isqrt().min(i32::MAX as u64) as i64;
    match random.below(12) {
        0 => 0,
        1 => end.min(1),
        2 => end.min(1 << 22),
        3 => end,
        _ => random.between(0, end) / random.between(1, 4),
    }
}

/// A leading pair that no turn skips: where the lower word is 0, the upper one is negative.
fn turned([u, v]: [i32; 2]) -> [i32; 2] {
    if v == 0 && u > 0 {
        [-u, v]
    } else {
        [u, v]
    }
}

/// A column behind the leading one.
fn other_column(leading: usize, random: &mut Random) -> usize {
    leading + 1 + random.below(COLUMNS - leading - 1)
}

/// An area in which the two rows of a turn lie near the norm, column by column.
fn rows_near(norm: u64, outside: Outside, turn: Turn, random: &mut Random) -> WorkArea {
    let mut area = WorkArea::from_words(&std::array::from_fn(|_| random.word() >> 2));
    let chosen = other_column(turn.column, random);
    for column in turn.column..COLUMNS {
        let outside = outside.has(column, turn.column, chosen);
        let mut pair = words_at(norm, outside, random);
        if column == turn.column {
            pair = turned(pair);
        }
        let [u, v] = pair;
        area.set_word(turn.upper, column, u);
        area.set_word(turn.lower, column, v);
    }
    area
}

/// An area in which all sixteen rows together lie near the norm, column by column.
fn columns_near(norm: u64, outside: Outside, leading: usize, random: &mut Random) -> WorkArea {
    let mut area = WorkArea::from_words(&[0; AREA_WORDS]);
    let chosen = other_column(leading, random);
    for column in 0..COLUMNS {
        let outside = outside.has(column, leading, chosen);
        let words: [i32; ROWS] = words_at(norm, outside, random);
        for (row, word) in words.into_iter().enumerate() {
            area.set_word(row, column, word);
        }
    }
    area
}

/// One way of making areas next to a norm, and what to do with them.
struct Areas<Make, Rows> {
    test: &'static str,
    seed: u64,
    make: Make,
    /// The rows over which a column's squares are summed.
    rows: Rows,
    /// Each area is run from a turn on, once with each budget.
    budgets: [i64; 2],
}

/// What was met at one norm.
#[derive(Default)]
struct Met {
    /// Areas with no column above the norm.
    inside: u64,
    /// Areas with at least one column above it.
    outside: u64,
    clamps: Clamps,
    /// Turns, and those of them that were not skipped.
    turns: u32,
    made: u32,
}

/// The largest sum of squares of a column over these rows, from the leading column on.
fn longest(area: &WorkArea, rows: &[usize], leading: usize) -> u128 {
    let square = |row: usize, column| u128::from(area.word(row, column).unsigned_abs()).pow(2);
    let sum = |column| rows.iter().map(|&row| square(row, column)).sum();
    (leading..COLUMNS).map(sum).max().unwrap_or(0)
}

impl<Make, Rows> Areas<Make, Rows>
where
    Make: Fn(u64, Outside, Turn, &mut Random) -> WorkArea,
    Rows: Fn(Turn) -> Vec<usize>,
{
    /// Compares areas for each norm and each way of lying outside of it.
    fn compare(&self) {
        let (mut number, mut clamps) = (0, Clamps::NONE);
        println!("\nAreas with {} next to a norm:", self.test);
        for norm in NORMS {
            let mut met = Met::default();
            for outside in Outside::ALL {
                for _ in 0..AREAS_PER_NORM {
                    self.compare_one(number, norm, outside, &mut met);
                    number += 1;
                }
            }
            let Met {
                inside,
                outside,
                turns,
                made,
                ..
            } = met;
            println!(
                "norm {norm}: {inside} inside, {outside} outside, {made} of {turns} turns made"
            );
            assert!(made > turns / 2, "most turns were skipped at {norm}");
            assert!(inside >= AREAS_PER_NORM, "few areas inside of {norm}");
            assert!(outside >= 4 * AREAS_PER_NORM, "few areas outside of {norm}");
            clamps += met.clamps;
        }
        let Clamps { r, q } = clamps;
        println!("{number} areas, {r} clamps in R, {q} in Q");
        assert!(r > 0, "the norms that clamp were not reached in R");
        assert!(q > 0, "the norms that clamp were not reached in Q");
    }

    fn compare_one(&self, number: u64, norm: u64, outside: Outside, met: &mut Met) {
        let case = Case::of_words(self.test, self.seed, number);
        let mut random = case.random();
        let mut job = Job::new(random.below(TURNS as usize) as u32, 0);
        let first = schedule::turns()[job.turn as usize];
        let area = (self.make)(norm, outside, first, &mut random);
        match longest(&area, &(self.rows)(first), first.column) > u128::from(norm) {
            true => met.outside += 1,
            false => met.inside += 1,
        }
        let mut both = Both::new(case);
        both.fill_area(&area.to_words());
        for budget in self.budgets {
            let reply = both.run(job, random.between(1, budget) as u16);
            met.clamps += reply.clamps;
            met.turns += reply.count;
            job = reply.job;
        }
        met.made += job.made;
    }
}

#[test]
fn two_rows_next_to_a_norm_agree() {
    let areas = Areas {
        test: "two rows",
        seed: 501,
        make: rows_near,
        rows: |turn: Turn| vec![turn.upper, turn.lower],
        budgets: [1, 20],
    };
    areas.compare();
}

#[test]
fn whole_columns_next_to_a_norm_agree() {
    let areas = Areas {
        test: "whole columns",
        seed: 502,
        make: |norm, outside, turn: Turn, random: &mut Random| {
            columns_near(norm, outside, turn.column, random)
        },
        rows: |_| (0..ROWS).collect(),
        budgets: [40, 120],
    };
    areas.compare();
}

#[test]
fn leading_words_at_the_end_of_the_range_agree() {
    let (mut below, mut at_end, mut clamped) = (0, 0, 0);
    for number in 0..4000 {
        let case = Case::of_words("end of the range", 503, number);
        let mut random = case.random();
        let length = (i32::MAX as u64) - random.below(40) as u64;
        let outside = random.one_in(2);
        let mut words = [0; AREA_WORDS];
        let [u, v] = turned(words_at(length * length, outside, &mut random));
        (words[14 * COLUMNS + 14], words[15 * COLUMNS + 14]) = (u, v);
        let mut both = Both::new(case);
        both.fill_area(&words);
        let reply = both.run(Job::new(119, 0), 1);
        both.require(reply.job.made == 1, "the turn was skipped");
        both.require(reply.clamps.q == 0, "a word 0 of Q was clamped");
        match (both.area().word(14, 14), reply.clamps.r) {
            (i32::MAX, 0) => at_end += 1,
            (i32::MAX, _) => clamped += 1,
            _ => below += 1,
        }
    }
    println!(
        "\nLeading words: {below} under the end of the range, {at_end} at it, {clamped} clamped"
    );
    assert!(below > 0 && at_end > 0 && clamped > 0);
}
