use hubqr::{Sample, Weight};

use crate::tool::{
    add_to_word, diagonal_result, matrix_record, set_element, uniform_record, worked, Folder,
    Outcome, WIDEST,
};

const EIGHT: &str = "1 2 3 4 5 6 7 8";

fn weights(folder: &Folder, result: &[u8], targets: &str) -> Outcome {
    folder.write("r.bin", result);
    folder.write("t.txt", targets);
    folder.run(&["weights", "r.bin", "t.txt"])
}

/// The columns of the eight lines behind the heading.
pub fn lines(outcome: &Outcome) -> Vec<Vec<&str>> {
    assert_eq!((outcome.status, outcome.stderr.as_str()), (0, ""));
    assert!(outcome.text().lines().all(|line| line.len() <= WIDEST));
    let lines: Vec<_> = outcome.text().lines().skip(3).collect();
    assert_eq!(lines.len(), 8);
    lines
        .iter()
        .map(|line| line.split_whitespace().collect())
        .collect()
}

/// With one in R and in Q the weights are the targets. A negative last word of R's diagonal turns the
/// sign of one part, that of a zero too.
#[test]
fn weights_are_printed_with_their_targets() {
    let folder = Folder::new("weights-text");
    let mut result = diagonal_result(1 << 28, 1 << 30);
    add_to_word(&mut result, 255, -(1 << 29));
    let targets = "16384 -32768j\n1-1i 0, 3-4i -12288 32767+1i\n-24576 # half a one, and so on";
    let outcome = weights(&folder, &result, targets);
    assert_eq!((outcome.status, outcome.stderr.as_str()), (0, ""));
    let expected = "\
weights w: R times w = Q transposed times the targets, which are in units of 1/32768

antenna      target           real part   imaginary part        magnitude    degrees
      0   16384+0i          0.500000000              0.0      0.500000000     0.0000
      1       0-32768i              0.0      -1.00000000       1.00000000   -90.0000
      2       1-1i        3.05175781e-5   -3.05175781e-5    4.31583729e-5   -45.0000
      3       0+0i                  0.0              0.0              0.0          -
      4       3-4i        9.15527344e-5  -0.000122070312   0.000152587891   -53.1301
      5  -12288+0i         -0.375000000              0.0      0.375000000   180.0000
      6   32767+1i          0.999969482    3.05175781e-5      0.999969483     0.0017
      7  -24576+0i         -0.750000000             -0.0      0.750000000  -180.0000
";
    assert_eq!(outcome.text(), expected);
    let zeros = weights(&folder, &result, "0 0 0 0 0 0 0 0");
    assert_eq!(lines(&zeros)[7], ["7", "0+0i", "0.0", "-0.0", "0.0", "-"]);
}

/// Asserts that what is printed of a float is it, in nine significant digits.
fn assert_printed(printed: &str, value: f64) {
    let read: f64 = printed.parse().unwrap();
    let within = 5.000_001e-9 * value.abs();
    assert!((read - value).abs() <= within, "{printed} for {value:e}");
    assert_eq!(read.is_sign_negative(), value.is_sign_negative());
}

/// Targets from the ends of the range and from its middle, and their text.
fn targets() -> ([Sample; 8], String) {
    let parts = [-32768, 32767, 0, 1, -1, 12345, -6789, 300];
    let targets = std::array::from_fn(|k| Sample {
        re: parts[k],
        im: parts[(3 * k + 1) % 8],
    });
    let text = targets.map(|target| format!("{}{:+}i", target.re, target.im));
    (targets, text.join("\n"))
}

fn assert_engines(outcome: &Outcome, targets: [Sample; 8], weights: [Weight; 8]) {
    for (k, columns) in lines(outcome).iter().enumerate() {
        let (target, Weight { re, im }) = (targets[k], weights[k]);
        assert_eq!(columns[0], k.to_string());
        assert_eq!(columns[1], format!("{}{:+}i", target.re, target.im));
        assert_printed(columns[2], re);
        assert_printed(columns[3], im);
        assert_printed(columns[4], re.hypot(im));
        let degrees: f64 = columns[5].parse().unwrap();
        assert!((degrees - im.atan2(re).to_degrees()).abs() < 0.0001);
    }
}

#[test]
fn what_is_printed_are_the_engines_weights() {
    let folder = Folder::new("weights-engine");
    let (targets, text) = targets();
    for matrix in [
        matrix_record(17, (0, -1)),
        matrix_record(32767, (-32768, -32768)),
        matrix_record(12345, (-777, 32767)),
    ] {
        let result = worked(&matrix);
        let expected = hubqr::weights(&result, targets).unwrap();
        assert_engines(&weights(&folder, &result, &text), targets, expected);
    }
}

/// Words of R as large as they may be over a diagonal of 1 make the largest weights, and small ones of
/// Q over a large diagonal small ones.
#[test]
fn huge_and_tiny_weights_fit_into_the_columns() {
    let folder = Folder::new("weights-huge");
    let (targets, text) = targets();
    let mut huge = diagonal_result(1, 1 << 30);
    for (i, j) in (0..256).map(|place| (place / 16, place % 16)) {
        if i < j {
            add_to_word(&mut huge, 16 * i + j, i32::MIN);
        }
    }
    let tiny = diagonal_result(i32::MAX, 1);
    for (result, exponent) in [(huge, "e13"), (tiny, "e-1")] {
        let outcome = weights(&folder, &result, &text);
        let expected = hubqr::weights(&result, targets).unwrap();
        assert!(lines(&outcome)[1][2].contains(exponent));
        assert_engines(&outcome, targets, expected);
    }
}

/// A result record with some words of R and Q transposed changed by these summands.
fn changed(changes: &[(usize, i32)]) -> Vec<u8> {
    let mut record = diagonal_result(8, 1 << 30);
    for &(place, summand) in changes {
        add_to_word(&mut record, place, summand);
    }
    record
}

/// Records that are refused, by which number, and what is said to be wrong in them.
fn refused() -> Vec<(Vec<u8>, u8, &'static str)> {
    let matrix = "the kind byte is 01, a result record begins with 02";
    let refusal = "the kind byte is 03, a result record begins with 02";
    let short = "a result record has 2049 bytes, this one 2048";
    let long = "a result record has 2049 bytes, this one more than 2049";
    vec![
        (vec![], 1, "empty"),
        (matrix_record(20, (0, 0)), 1, matrix),
        (vec![1; 2049], 1, matrix),
        (vec![3, 4], 1, refusal),
        (changed(&[])[..2048].to_vec(), 2, short),
        ([changed(&[]), vec![0]].concat(), 2, long),
        (changed(&[(16, 5)]), 8, "word (1, 0) of R is 5"),
        (changed(&[(254, -2)]), 8, "word (15, 14) of R is -2"),
        (changed(&[(14 * 17, -9)]), 8, "word (14, 14) of R is -1"),
        (changed(&[(0, -8), (16, 5)]), 8, "word (1, 0) of R is 5"),
        (changed(&[(0, -8)]), 11, "word (0, 0) of R is 0"),
        (changed(&[(255, -8)]), 11, "word (15, 15) of R is 0"),
        (worked(&one_antenna()), 11, "word (1, 1) of R is 0"),
    ]
}

/// A matrix record that is 0 but for the real part of element (0, 0).
fn one_antenna() -> Vec<u8> {
    let mut record = uniform_record((0, 0));
    set_element(&mut record, (0, 0), (17, 0));
    record
}

#[test]
fn a_refused_record_is_said_with_its_number() {
    let folder = Folder::new("weights-refused");
    for (record, number, what) in refused() {
        let refusal = hubqr::weights(&record, targets().0).unwrap_err();
        assert_eq!(refusal.number(), number, "{what}");
        let outcome = weights(&folder, &record, EIGHT);
        let why = format!("the engine refuses it with number {number}: {refusal}");
        assert_eq!(outcome.stderr, format!("record: r.bin: {what}: {why}\n"));
        assert_eq!((outcome.status, outcome.text()), (1, ""));
    }
    let negative = weights(&folder, &changed(&[(255, -9)]), EIGHT);
    assert_eq!(negative.status, 0, "the last diagonal word may be negative");
}

#[test]
fn wrong_targets_are_pointed_at() {
    let folder = Folder::new("weights-targets");
    let result = diagonal_result(1 << 28, 1 << 30);
    for (content, message) in [
        ("1 2 3 4\n5 6 7\n", "line 2, column 1: the text ends after 7 numbers, 8 are needed"),
        ("", "line 1, column 1: the text ends after 0 numbers, 8 are needed"),
        ("1 2 3 4\n5 6 7 8 9", "line 2, column 9: a ninth number, there are 8 targets"),
        ("1 2 3 4 5 6 7 32768", "line 1, column 15: 32768 is out of range: whole numbers are units of 1/32768 and go from -32768 to 32767"),
        ("1 2 3 4 5 6 7 0.5", "line 1, column 15: a decimal fraction in a file of whole numbers (see line 1): write all parts in the same way"),
        ("0.5 0 0\n-1i 0 0 0 0", "line 2, column 1: a whole number in a file of decimal fractions (see line 1): write all parts in the same way"),
        ("1 2 3 4 5 6 7 k", "line 1, column 15: a digit expected, found 'k'"),
    ] {
        let outcome = weights(&folder, &result, content);
        assert_eq!(outcome.stderr, format!("record: t.txt: {message}\n"));
        assert_eq!((outcome.status, outcome.text()), (1, ""));
    }
    let long = "longer than 1 MiB, which is no list of eight targets";
    let outcome = weights(&folder, &result, &"\n".repeat((1 << 20) + 1));
    assert_eq!(outcome.stderr, format!("record: t.txt: {long}\n"));
    let outcome = folder.run(&["weights", "r.bin", "absent.txt"]);
    let absent = "absent.txt: No such file or directory (os error 2)";
    assert_eq!(outcome.stderr, format!("record: {absent}\n"));
    assert_eq!((outcome.status, outcome.text()), (1, ""));
}

#[test]
fn one_file_may_come_from_standard_input() {
    let folder = Folder::new("weights-standard");
    let result = worked(&matrix_record(20, (1, 3)));
    let expected = weights(&folder, &result, EIGHT).stdout;
    let outcome = folder.run_with_input(&["weights", "-", "t.txt"], &result);
    assert_eq!((outcome.status, &outcome.stdout), (0, &expected));
    let outcome = folder.run_with_input(&["weights", "r.bin", "-"], EIGHT.as_bytes());
    assert_eq!((outcome.status, &outcome.stdout), (0, &expected));
    let outcome = folder.run(&["weights", "-", "-"]);
    assert!(outcome
        .stderr
        .starts_with("record: only one of the two files can come from standard input\n"));
    assert_eq!((outcome.status, outcome.text()), (2, ""));
}
