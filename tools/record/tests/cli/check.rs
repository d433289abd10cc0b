use crate::tool::{
    add_to_word, diagonal_result, matrix_record, uniform_record, worked, Folder, Outcome, NO, YES,
};

/// What is said of a yes where the columns of R are outside their limit.
const NOT_COUNTED: &str =
    "R's columns do not count for a yes, but those of the engine's own results are within their limit";

fn check(folder: &Folder, matrix: &[u8], result: &[u8]) -> Outcome {
    folder.write("m.bin", matrix);
    folder.write("r.bin", result);
    folder.run(&["check", "m.bin", "r.bin"])
}

/// What the last column says of the five figures.
fn within_or_not(outcome: &Outcome) -> Vec<&str> {
    let figures = outcome.text().lines().skip(1).take(5);
    figures
        .map(|line| line.split(' ').next_back().unwrap())
        .collect()
}

/// What stands under the figures.
fn last_lines(outcome: &Outcome) -> Vec<&str> {
    outcome.text().lines().skip(6).collect()
}

const ALL_WITHIN: [&str; 5] = ["within"; 5];

#[test]
fn what_the_engine_makes_is_within_its_limits() {
    let folder = Folder::new("check-engine");
    for matrix in [
        matrix_record(17, (0, 0)),
        matrix_record(17, (0, -1)),
        matrix_record(32767, (-32768, -32768)),
        matrix_record(12345, (-777, 32767)),
        uniform_record((32767, -32768)),
    ] {
        let outcome = check(&folder, &matrix, &worked(&matrix));
        assert_eq!((outcome.status, outcome.stderr.as_str()), (0, ""));
        assert_eq!(within_or_not(&outcome), ALL_WITHIN);
        assert_eq!(last_lines(&outcome), [YES]);
    }
}

/// With one in Q and the input in R there is no error at all, so that the limits are met to the unit.
#[test]
fn the_limits_are_met_exactly() {
    let folder = Folder::new("check-exact");
    let matrix = matrix_record(20, (0, 0));
    let exact = diagonal_result(20 << 13, 1 << 30);
    let outcome = check(&folder, &matrix, &exact);
    assert_eq!(
        (outcome.status, within_or_not(&outcome)),
        (0, ALL_WITHIN.to_vec())
    );

    let (product, rows) = (0, 1);
    for (place, summand, largest, outside) in [
        (3 * 17, 1 << 14, "17592186044416", None),
        (3 * 17, (1 << 14) + 1, "17593259786240", Some(product)),
        (3 * 17, -(1 << 14) - 1, "17593259786240", Some(product)),
        (256 + 1, 1 << 14, "17592186044416", None),
        (256 + 1, (1 << 14) + 1, "17593259786240", Some(rows)),
    ] {
        let mut result = exact.clone();
        add_to_word(&mut result, place, summand);
        let outcome = check(&folder, &matrix, &result);
        let mut expected = ALL_WITHIN;
        if let Some(figure) = outside {
            expected[figure] = "OUTSIDE";
        }
        assert_eq!(within_or_not(&outcome), expected, "{}", outcome.text());
        assert!(outcome.text().contains(largest), "{}", outcome.text());
        let verdict = if outside.is_some() { NO } else { YES };
        assert_eq!(last_lines(&outcome), [verdict]);
        assert_eq!(outcome.status, i32::from(outside.is_some()));
    }
}

/// (2^28 - 2^14 + 2^15)^2 is just 2^44 above (2^28 - 2^14)^2.
#[test]
fn the_limit_of_the_columns_of_r_is_met_exactly() {
    let folder = Folder::new("check-columns");
    let matrix = matrix_record(32766, (0, 0));
    let exact = diagonal_result(32766 << 13, 1 << 30);
    for (summand, figure, place, verdict) in [
        (0, "0", "(15, 15)", "within"),
        (1 << 15, "17592186044416", "(3, 3)", "within"),
        ((1 << 15) + 1, "17592722948097", "(3, 3)", "OUTSIDE"),
    ] {
        let mut result = exact.clone();
        add_to_word(&mut result, 3 * 17, summand);
        let outcome = check(&folder, &matrix, &result);
        let line = outcome.text().lines().nth(3).unwrap();
        let name = "products of R's columns from the input's";
        assert!(line.starts_with(name), "{line}");
        assert!(line.contains(&format!(" {figure}   {place} ")), "{line}");
        assert_eq!(within_or_not(&outcome)[2], verdict);
    }
}

#[test]
fn the_columns_of_r_are_compared_in_pairs() {
    let folder = Folder::new("check-pairs");
    let matrix = matrix_record(32767, (0, 0));
    let mut result = diagonal_result(32767 << 13, 1 << 30);
    add_to_word(&mut result, 2 * 16 + 9, -(1 << 17));
    let outcome = check(&folder, &matrix, &result);
    let line = outcome.text().lines().nth(3).unwrap();
    let difference = (32767_i64 << 13) << 17;
    assert!(line.contains(&format!(" {difference}   (9, 2) ")), "{line}");
    assert_eq!(within_or_not(&outcome)[2], "OUTSIDE");
    assert_eq!((outcome.status, last_lines(&outcome)), (1, vec![NO]));
}

/// Where Q spreads a word of R over many entries, R's columns notice a change that Q times R hardly
/// shows, so that their limit is one of its own. It does not count for a yes.
#[test]
fn the_columns_of_r_can_be_outside_alone() {
    let folder = Folder::new("check-columns-alone");
    let matrix = uniform_record((32767, 32767));
    let mut result = worked(&matrix);
    add_to_word(&mut result, 0, 1 << 14);
    let outcome = check(&folder, &matrix, &result);
    let mut expected = ALL_WITHIN;
    expected[2] = "OUTSIDE";
    assert_eq!(within_or_not(&outcome), expected, "{}", outcome.text());
    assert_eq!(last_lines(&outcome), [NOT_COUNTED, YES]);
    assert_eq!(outcome.status, 0);
}

/// The engine refuses such a result, though all else is within its limits.
#[test]
fn the_rules_of_r_are_counted() {
    let refused =
        "neither yes nor no: the engine refuses it with number 8: R has a word under its \
                   diagonal that is not 0, or a negative one among its first 15 diagonal words";
    let folder = Folder::new("check-rules");
    let matrix = matrix_record(20, (0, 0));
    let mut result = diagonal_result(20 << 13, 1 << 30);
    add_to_word(&mut result, 16, 1);
    add_to_word(&mut result, 250, -1);
    let outcome = check(&folder, &matrix, &result);
    assert_eq!(
        within_or_not(&outcome),
        ["within", "within", "within", "OUTSIDE", "within"]
    );
    assert!(
        outcome.text().contains(" 2   of 120 "),
        "{}",
        outcome.text()
    );
    assert_eq!((outcome.status, last_lines(&outcome)), (1, vec![refused]));

    let negative = diagonal_result(-20 << 13, -1 << 30);
    let outcome = check(&folder, &matrix, &negative);
    assert_eq!(
        within_or_not(&outcome),
        ["within", "within", "within", "within", "OUTSIDE"]
    );
    assert!(
        outcome.text().contains(" 15   of 15 "),
        "{}",
        outcome.text()
    );
    assert_eq!((outcome.status, last_lines(&outcome)), (1, vec![refused]));
}

#[test]
fn a_result_of_another_matrix_is_outside() {
    let folder = Folder::new("check-other");
    let other = worked(&matrix_record(20, (1, 3)));
    let outcome = check(&folder, &matrix_record(20, (1, -3)), &other);
    assert_eq!(within_or_not(&outcome)[0], "OUTSIDE");
    assert_eq!((outcome.status, last_lines(&outcome)), (1, vec![NO]));
}

/// The figures are worked out beside the verdict: the first two are within their limits exactly where
/// it is yes. One word after the other is changed by more and more.
#[test]
fn figures_and_verdict_agree() {
    let folder = Folder::new("check-agree");
    let matrix = matrix_record(12345, (-777, 32767));
    let exact = worked(&matrix);
    let mut verdicts = [0; 2];
    for (n, place) in (0..512).step_by(7).enumerate() {
        let mut result = exact.clone();
        add_to_word(&mut result, place, 1 << (n % 30));
        let Ok(yes) = hubqr::verify(&matrix, &result) else {
            continue;
        };
        let outcome = check(&folder, &matrix, &result);
        let within = within_or_not(&outcome)[..2] == ["within"; 2];
        assert_eq!((within, outcome.status), (yes, i32::from(!yes)));
        let verdict = if yes { YES } else { NO };
        assert_eq!(last_lines(&outcome).last(), Some(&verdict));
        verdicts[usize::from(yes)] += 1;
    }
    assert!(verdicts.iter().all(|&count| count > 15), "{verdicts:?}");
}

#[test]
fn one_record_may_come_from_standard_input() {
    let folder = Folder::new("check-standard");
    let matrix = matrix_record(20, (1, 3));
    folder.write("m.bin", &matrix);
    let outcome = folder.run_with_input(&["check", "m.bin", "-"], &worked(&matrix));
    assert_eq!(
        (outcome.status, within_or_not(&outcome)),
        (0, ALL_WITHIN.to_vec())
    );
    let outcome = folder.run(&["check", "-", "-"]);
    assert_eq!(outcome.status, 2);
}

#[test]
fn records_of_the_wrong_kind_are_named() {
    let folder = Folder::new("check-kinds");
    let matrix = matrix_record(20, (1, 3));
    let result = worked(&matrix);
    for (first, second, message) in [
        (
            &result,
            &result,
            "m.bin is a result record, a matrix record is needed here",
        ),
        (
            &matrix,
            &matrix,
            "r.bin is a matrix record, a result record is needed here",
        ),
        (
            &matrix,
            &vec![3, 4],
            "r.bin is a refusal record, a result record is needed here",
        ),
        (
            &vec![3, 4],
            &matrix,
            "m.bin is a refusal record, a matrix record is needed here",
        ),
    ] {
        let outcome = check(&folder, first, second);
        assert_eq!(outcome.stderr, format!("record: {message}\n"));
        assert_eq!((outcome.status, outcome.text()), (1, ""));
    }
}

/// In the engine's order: a matrix in which no antenna was heard is named, whatever its result is.
#[test]
fn faults_of_the_matrix_come_first() {
    let folder = Folder::new("check-order");
    let silent = matrix_record(16, (1, 3));
    for result in [vec![], vec![2; 5], vec![3, 4]] {
        let outcome = check(&folder, &silent, &result);
        assert!(outcome
            .stderr
            .starts_with("record: m.bin: the engine refuses it with number 4: "));
        assert_eq!((outcome.status, outcome.text()), (1, ""));
    }
}
