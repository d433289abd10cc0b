use crate::tool::{add_to_word, diagonal_result, matrix_record, worked, Folder, WIDEST};

#[test]
fn a_matrix_is_shown_so_that_it_can_be_packed_again() {
    let folder = Folder::new("show-matrix");
    for record in [
        matrix_record(20, (-32768, -32768)),
        matrix_record(32767, (0, 1)),
        matrix_record(17, (0, -1)),
    ] {
        folder.write("m.bin", &record);
        let shown = folder.run(&["show", "m.bin"]);
        assert_eq!((shown.status, shown.stderr.as_str()), (0, ""));
        assert!(shown.text().lines().all(|line| line.len() <= WIDEST));
        let packed = folder.run_with_input(&["pack", "-", "-"], &shown.stdout);
        assert_eq!(packed.stdout, record);
    }
}

/// Where a block of eight columns begins among the lines of a shown result: R's two, then Q's two. Each
/// has an empty line, its name, the columns' numbers and 16 rows.
fn block(number: usize) -> usize {
    1 + 19 * number
}

#[test]
fn a_result_is_shown_at_the_scales_of_r_and_q() {
    let folder = Folder::new("show-result");
    let mut record = diagonal_result(3 << 13, 1 << 30);
    add_to_word(&mut record, 15, -(1 << 12));
    add_to_word(&mut record, 1, 1);
    add_to_word(&mut record, 2, -1);
    add_to_word(&mut record, 256 + 16 * 5 + 2, 1 << 28);
    let shown = folder.run_with_input(&["show", "-"], &record);
    let lines: Vec<&str> = shown.text().lines().collect();
    assert_eq!((shown.status, shown.stderr.as_str()), (0, ""));
    assert_eq!(lines.len(), block(4));
    let row = |number: usize, i: usize| {
        let line = lines[block(number) + 3 + i];
        line.split_whitespace().collect::<Vec<_>>()
    };
    let upright = "R is upper triangular and its first 15 diagonal words are not negative";
    assert_eq!(lines[0], format!("result record: {upright}"));
    let (r, q) = (
        "R in steps of the 16-bit input (word / 2^13), columns",
        "Q in parts of one (word / 2^30), columns",
    );
    assert_eq!(lines[block(0) + 1], format!("{r} 0 to 7"));
    assert_eq!(lines[block(1) + 1], format!("{r} 8 to 15"));
    assert_eq!(lines[block(3) + 1], format!("{q} 8 to 15"));
    assert_eq!(row(0, 0)[..4], ["0", "3.00", "0.00", "0.00"], "row 0 of R");
    assert_eq!(row(1, 0)[8], "-0.50", "the last word of row 0");
    assert_eq!(row(0, 1)[1..3], ["0", "3.00"], "row 1 of R");
    assert_eq!(row(2, 2)[..4], ["2", "0", "0", "1.00000"], "row 2 of Q");
    assert_eq!(row(2, 2)[6], "0.25000", "Q and not Q transposed");
}

#[test]
fn the_largest_words_fit_and_zero_has_no_sign() {
    let folder = Folder::new("show-wide");
    let mut record = worked(&matrix_record(32767, (-32768, -32768)));
    add_to_word(&mut record, 255, i32::MIN);
    let shown = folder.run_with_input(&["show", "-"], &record);
    assert_eq!(shown.status, 0);
    let widest = shown.text().lines().map(str::len).max();
    assert!(widest <= Some(WIDEST), "{widest:?}");
    let mut words = shown.text().split_whitespace();
    assert!(words.all(|word| word != "-0.00" && word != "-0.00000"));
}

#[test]
fn a_result_that_breaks_the_rule_of_r_is_shown_with_the_reason() {
    let folder = Folder::new("show-rule");
    let rule =
        "the engine refuses it with number 8: R has a word under its diagonal that is not 0, \
                or a negative one among its first 15 diagonal words";
    for (place, summand, word) in [
        (0, -9, "word (0, 0) of R is -1"),
        (14 * 17, -9, "word (14, 14) of R is -1"),
        (16, 5, "word (1, 0) of R is 5"),
        (254, -2, "word (15, 14) of R is -2"),
    ] {
        let mut record = diagonal_result(8, 1 << 30);
        add_to_word(&mut record, place, summand);
        let shown = folder.run_with_input(&["show", "-"], &record);
        let first = shown.text().lines().next().unwrap();
        assert_eq!(first, format!("result record: {word}: {rule}"));
        assert_eq!(shown.status, 1);
    }
}

#[test]
fn a_refusal_is_shown_in_the_words_of_the_host_crate() {
    let folder = Folder::new("show-refusal");
    for refusal in hubqr::Refusal::ALL {
        let number = refusal.number();
        let shown = folder.run_with_input(&["show", "-"], &[3, number]);
        let expected = format!("refusal record, number {number}: {refusal}\n");
        assert_eq!((shown.status, shown.text()), (0, expected.as_str()));
    }
}

#[test]
fn what_is_no_record_is_refused_in_words() {
    let folder = Folder::new("show-bad");
    let kind = "the engine refuses it with number 1: \
                the record is empty or its kind byte is not the one expected, \
                or a log has no such kind of entry";
    let length = "the engine refuses it with number 2: \
                  the record's length is not 257 bytes for a matrix or 2,049 bytes for a result, \
                  or a log entry's body has not the length of its kind";
    for (bytes, message) in [
        (vec![], format!("empty: {kind}")),
        (vec![0x7f; 257], format!("the kind byte is 7F; records begin with 01 (matrix), 02 (result) or 03 (refusal): {kind}")),
        (vec![1; 256], format!("a matrix record has 257 bytes, this one 256: {length}")),
        (vec![1; 5000], format!("a matrix record has 257 bytes, this one more than 2049: {length}")),
        (vec![2; 2048], format!("a result record has 2049 bytes, this one 2048: {length}")),
        (vec![2; 2050], format!("a result record has 2049 bytes, this one more than 2049: {length}")),
        (vec![3], "a refusal record has 2 bytes, this one 1".into()),
        (vec![3; 3], "a refusal record has 2 bytes, this one 3".into()),
        (vec![3, 0], "a refusal record of number 0, which is none".into()),
        (vec![3, 255], "a refusal record of number 255, which is none".into()),
    ] {
        let shown = folder.run_with_input(&["show", "-"], &bytes);
        assert_eq!(shown.stderr, format!("record: standard input: {message}\n"));
        assert_eq!((shown.status, shown.text()), (1, ""));
    }
    let shown = folder.run(&["show", "absent.bin"]);
    assert_eq!(
        shown.stderr,
        "record: absent.bin: No such file or directory (os error 2)\n"
    );
    assert_eq!(shown.status, 1);
}
