//! Accepted calls: replies, and that instalments, threads and a detour over records make no difference.
use crate::lent::{at, matrix, mixed_matrix, Lent, MIXED_HEARD, NO_CLAMPS};
use hubqr::{Clamps, AREA_WORDS, Q_ONE, RESULT_RECORD_BYTES, R_ONE, TURNS};

/// Load, Runs of one allowance, Fetch.
fn in_instalments(record: &[u8], allowance: u16) -> Lent {
    let mut lent = Lent::new();
    let mut job = hubqr::load(record, &mut lent.area).unwrap().job;
    assert_eq!(job, at(0, 0));
    while !job.is_finished() {
        let progress = hubqr::run(job, allowance, &mut lent.area).unwrap();
        assert_eq!(progress.job.turn, job.turn + progress.count);
        assert_eq!(progress.count, u32::from(allowance).min(TURNS - job.turn));
        assert_eq!(progress.clamps, NO_CLAMPS);
        job = progress.job;
    }
    hubqr::fetch(job, &lent.area, &mut lent.buffer).unwrap();
    lent
}

#[test]
fn the_archive_is_of_this_version() {
    assert_eq!(hubqr::version(), hubqr::VERSION);
}

#[test]
fn load_scales_and_places_the_parts() {
    let record = matrix(|i, j| match (i, j) {
        (2, 5) => (1, -32768),
        (7, 7) => (17, 0),
        _ => (0, 0),
    });
    let mut area = [7; AREA_WORDS];
    hubqr::load(&record, &mut area).unwrap();
    let mut expected = [0; AREA_WORDS];
    for diagonal in 0..16 {
        expected[33 * diagonal + 16] = Q_ONE;
    }
    expected[32 * 2 + 5] = R_ONE / 32768;
    expected[32 * 10 + 13] = R_ONE / 32768;
    expected[32 * 10 + 5] = -R_ONE;
    expected[32 * 2 + 13] = R_ONE;
    expected[32 * 7 + 7] = 17 * (R_ONE / 32768);
    expected[32 * 15 + 15] = 17 * (R_ONE / 32768);
    assert_eq!(area, expected);
}

#[test]
fn instalments_make_no_difference() {
    let record = mixed_matrix();
    let mut whole = Lent::new();
    let factored = hubqr::whole(&record, &mut whole.area, &mut whole.buffer).unwrap();
    assert_eq!((factored.heard, factored.clamps), (MIXED_HEARD, NO_CLAMPS));
    assert!(whole.tails_untouched());
    for allowance in [1, 7, 60, 119, 120, 121, u16::MAX] {
        assert_eq!(in_instalments(&record, allowance), whole, "{allowance}");
    }
}

#[test]
fn a_run_may_make_no_turn() {
    let mut lent = in_instalments(&mixed_matrix(), 120);
    let before = lent.clone();
    for (job, allowance) in [
        (at(120, 0), u16::MAX),
        (at(120, 120), u16::MAX),
        (at(120, 7), 0),
        (at(60, 0), 0),
        (at(60, 60), 0),
    ] {
        let progress = hubqr::run(job, allowance, &mut lent.area).unwrap();
        assert_eq!((progress.job, progress.count), (job, 0));
        assert_eq!(progress.clamps, NO_CLAMPS);
        assert_eq!(lent, before);
    }
}

/// The last turn works on columns 14 to 31 of two rows, which are equal here. Two equal words become
/// a longer one in the upper row and next to nothing in the lower one, so that each column of the
/// largest words is cut once.
#[test]
fn clamps_are_counted_by_side() {
    for (columns, r, q) in [
        (0..32, 2, 16),
        (0..16, 2, 0),
        (16..32, 0, 16),
        (14..15, 1, 0),
        (15..16, 1, 0),
        (16..17, 0, 1),
        (0..0, 0, 0),
    ] {
        let word = |place: usize| match columns.contains(&(place % 32)) {
            true => i32::MAX,
            false => 1000,
        };
        let mut area: [i32; AREA_WORDS] = std::array::from_fn(word);
        let progress = hubqr::run(at(119, 119), 1, &mut area).unwrap();
        assert_eq!(progress.job, at(120, 120));
        assert_eq!(progress.clamps, Clamps { r, q }, "columns {columns:?}");
    }
}

#[test]
fn a_result_record_reads_back_to_itself() {
    let worked = in_instalments(&mixed_matrix(), 120);
    let mut lent = Lent::new();
    let record = &worked.buffer[..RESULT_RECORD_BYTES];
    let restored = hubqr::read(record, &mut lent.area).unwrap();
    assert_eq!(restored.job, at(120, 0));
    hubqr::fetch(restored.job, &lent.area, &mut lent.buffer).unwrap();
    assert_eq!(lent, worked);
}

#[test]
fn q_times_r_is_the_input_at_its_scale() {
    let record = mixed_matrix();
    let mut area = [0; AREA_WORDS];
    let job = hubqr::load(&record, &mut area).unwrap().job;
    let loaded = area;
    hubqr::run(job, 120, &mut area).unwrap();
    for (i, j) in (0..256).map(|place| (place / 16, place % 16)) {
        let product = |k: usize| i128::from(area[32 * k + 16 + i]) * i128::from(area[32 * k + j]);
        let sum: i128 = (0..16).map(product).sum();
        let input = i128::from(loaded[32 * i + j]) << 30;
        assert!((sum - input).abs() <= 1 << 44, "({i}, {j})");
    }
}

#[test]
fn threads_work_on_areas_of_their_own() {
    let record = mixed_matrix();
    let expected = in_instalments(&record, 120);
    std::thread::scope(|scope| {
        for allowance in 1..=4 {
            let (record, expected) = (&record, &expected);
            scope.spawn(move || assert_eq!(in_instalments(record, allowance), *expected));
        }
    });
}
