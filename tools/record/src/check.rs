//! `record check`: the errors of a result against their limits, in exact whole numbers, and the engine's
//! verdict.
use std::ffi::OsStr;

use hubqr::Refusal;

use crate::factors::{places, Factors, SIZE};
use crate::failure::Failure;
use crate::matrix::Matrix;
use crate::records::{self, Record};
use crate::refusal::refused_with;
use crate::verify::verdict_text;
use crate::{files, Report};

/// The most that a sum may differ from what it should be.
const LIMIT: i128 = 1 << 44;

pub fn check(matrix: &OsStr, result: &OsStr) -> Result<Report, Failure> {
    files::not_both_standard(matrix, result)?;
    let [matrix_bytes, result_bytes] = [records::read_bytes(matrix)?, records::read_bytes(result)?];
    let found = match Record::parse(matrix, &matrix_bytes)? {
        Record::Matrix(found) => found,
        other => return Err(wrong_record(matrix, &other, "a matrix record")),
    };
    let verdict = hubqr::verify(&matrix_bytes, &result_bytes);
    if verdict == Err(Refusal::NoneHeard) {
        return Err(files::named(matrix, refused_with(Refusal::NoneHeard)));
    }
    let factors = match Record::parse(result, &result_bytes)? {
        Record::Result(factors) => factors,
        other => return Err(wrong_record(result, &other, "a result record")),
    };
    let text = figures_text(&found, &factors, verdict);
    Ok(Report::text(text, verdict == Ok(true)))
}

fn wrong_record(file: &OsStr, found: &Record, wanted: &str) -> Failure {
    let (file, found) = (files::shown(file), found.name());
    Failure::Input(format!("{file} is {found}, {wanted} is needed here"))
}

/// The largest difference of a kind and its place.
struct Worst {
    difference: i128,
    place: (usize, usize),
}

impl Worst {
    fn of(difference: impl Fn(usize, usize) -> i128) -> Worst {
        let all = places().map(|place| Worst {
            difference: difference(place.0, place.1).abs(),
            place,
        });
        all.max_by_key(|worst| worst.difference)
            .expect("there are 256 places")
    }

    fn within(&self) -> bool {
        self.difference <= LIMIT
    }

    fn line(&self, name: &str) -> String {
        let (i, j) = self.place;
        let share = 100.0 * self.difference as f64 / LIMIT as f64;
        let figure = self.difference.to_string();
        let place = format!("({i}, {j})");
        let share = format!("{share:.3} %");
        line(name, &figure, &place, &share, within_or_not(self.within()))
    }
}

/// How many words of R break a rule, of how many that it is about.
struct Breaks {
    count: usize,
    of: usize,
}

impl Breaks {
    fn line(&self, name: &str) -> String {
        let (count, of) = (self.count.to_string(), format!("of {}", self.of));
        line(name, &count, &of, "", within_or_not(self.count == 0))
    }
}

fn within_or_not(within: bool) -> &'static str {
    if within {
        "within"
    } else {
        "OUTSIDE"
    }
}

fn line(name: &str, figure: &str, place: &str, share: &str, within: &str) -> String {
    let text = format!("{name:<41}{figure:>20}   {place:<8}{share:>17}   {within}");
    text.trim_end().to_string() + "\n"
}

/// The figures, and the engine's verdict in the last line.
fn figures_text(matrix: &Matrix, factors: &Factors, verdict: Result<bool, Refusal>) -> String {
    let product =
        Worst::of(|i, j| factors.q_times_r(i, j) - (i128::from(matrix.real_entry(i, j)) << 43));
    let rows = Worst::of(|i, j| {
        let expected = if i == j { 1 << 60 } else { 0 };
        factors.q_row_products(i, j) - expected
    });
    let columns = Worst::of(|i, j| {
        factors.r_column_products(i, j) - (matrix.real_column_products(i, j) << 26)
    });
    let broken = factors.rule_breaks();
    let under = Breaks {
        count: broken.under_diagonal.len(),
        of: SIZE * (SIZE - 1) / 2,
    };
    let negative = Breaks {
        count: broken.negative_diagonal.len(),
        of: SIZE - 1,
    };
    let text = [
        line("", "largest difference", "place", "of the limit 2^44", ""),
        product.line("Q times R from 2^43 times the input"),
        rows.line("products of Q's rows from 2^60 or 0"),
        columns.line("products of R's columns from the input's"),
        under.line("R under the diagonal, words not 0"),
        negative.line("R's first 15 diagonal words, negative"),
        remark(&columns, verdict).to_string(),
        verdict_text(verdict),
    ];
    text.concat()
}

/// What is said of a yes where the columns of R are outside their limit, and else nothing.
fn remark(columns: &Worst, verdict: Result<bool, Refusal>) -> &'static str {
    if verdict != Ok(true) || columns.within() {
        return "";
    }
    "R's columns do not count for a yes, but those of the engine's own results are within their limit\n"
}
