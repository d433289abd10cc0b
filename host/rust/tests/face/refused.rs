//! Refused calls: each call's numbers in the order of its tests, and that nothing lent is changed.
use crate::lent::{at, equal_parts, mixed_matrix, Lent};
use hubqr::Refusal::{self, *};
use hubqr::{ffi, Job, AREA_WORDS, KIND_REFUSAL, KIND_RESULT, RESULT_RECORD_BYTES};

/// Jobs that are none: a turn number above 120, or more turns made than that.
const NO_JOBS: [Job; 11] = [
    at(121, 0),
    at(121, 121),
    at(u32::MAX, 0),
    at(u32::MAX, u32::MAX),
    at(0, 1),
    at(0, u32::MAX),
    at(5, 6),
    at(119, 120),
    at(119, u32::MAX),
    at(120, 121),
    at(120, u32::MAX),
];

/// Makes a call that must be refused, on newly scribbled memory, and looks whether it stayed.
fn refused<T>(call: impl FnOnce(&mut Lent) -> Result<T, Refusal>, with: Refusal) {
    let mut lent = Lent::new();
    assert_eq!(call(&mut lent).err(), Some(with));
    assert_eq!(lent, Lent::new());
}

/// A result record of zeros with one word set: `place` counts the words of R, row by row.
fn result_with(place: usize, word: i32) -> Vec<u8> {
    let mut record = vec![0; RESULT_RECORD_BYTES];
    record[0] = KIND_RESULT;
    record[1 + 4 * place..][..4].copy_from_slice(&word.to_be_bytes());
    record
}

/// Records that Load and Whole refuse for their kind or their length, those in which no antenna would
/// be heard among them.
fn no_matrices() -> Vec<(Vec<u8>, Refusal)> {
    let mut records = vec![
        (vec![], WrongKind),
        (vec![2], WrongKind),
        (result_with(0, 1), WrongKind),
        (vec![1], WrongLength),
    ];
    for matrix in [mixed_matrix(), hum(), silence()] {
        records.push(([&[KIND_REFUSAL], &matrix[1..]].concat(), WrongKind));
        records.push((matrix[..256].to_vec(), WrongLength));
        records.push(([&matrix[..], &[0]].concat(), WrongLength));
    }
    records
}

/// What loose plugs leave: no part is zero, and no antenna is heard.
fn hum() -> Vec<u8> {
    equal_parts(2)
}

fn silence() -> Vec<u8> {
    equal_parts(0)
}

#[test]
fn load_refuses() {
    for (record, number) in no_matrices() {
        refused(|lent| hubqr::load(&record, &mut lent.area), number);
        refused(|_| hubqr::load(&record, &mut []), number);
    }
    for record in [mixed_matrix(), hum(), silence()] {
        refused(
            |lent| hubqr::load(&record, &mut lent.area[..511]),
            AreaTooShort,
        );
        refused(|_| hubqr::load(&record, &mut []), AreaTooShort);
    }
    for record in [hum(), silence()] {
        refused(|lent| hubqr::load(&record, &mut lent.area), NoneHeard);
    }
}

#[test]
fn run_refuses() {
    let jobs = [at(0, 0), at(120, 0), at(120, 120)];
    for job in jobs.into_iter().chain(NO_JOBS) {
        refused(
            |lent| hubqr::run(job, 1, &mut lent.area[..511]),
            AreaTooShort,
        );
        refused(|_| hubqr::run(job, 1, &mut []), AreaTooShort);
    }
    for job in NO_JOBS {
        refused(|lent| hubqr::run(job, 1, &mut lent.area), NoSuchJob);
        refused(|lent| hubqr::run(job, 0, &mut lent.area), NoSuchJob);
    }
}

/// The archive's reply to a refused Run has the job that it was handed, and 0 in all other fields.
#[test]
fn a_refused_run_gives_the_job_back() {
    let mut area = [7; AREA_WORDS];
    let mut given_back = |job, words: usize, with: Refusal| {
        // SAFETY: the length is at most that of the array.
        let reply = unsafe { ffi::hubqr_run(job, 120, area.as_mut_ptr(), words) };
        let due = ffi::RunReply {
            number: with.number(),
            job,
            count: 0,
            clamps_r: 0,
            clamps_q: 0,
        };
        assert_eq!((reply, area), (due, [7; AREA_WORDS]));
    };
    for job in NO_JOBS {
        given_back(job, 512, NoSuchJob);
        given_back(job, 511, AreaTooShort);
    }
    given_back(at(7, 5), 511, AreaTooShort);
    given_back(at(120, 120), 0, AreaTooShort);
}

#[test]
fn a_refused_load_or_read_answers_the_job_0_0() {
    let mut area = [7; AREA_WORDS];
    for record in [vec![KIND_REFUSAL], hum(), result_with(0, -1)] {
        let (bytes, length) = (record.as_ptr(), record.len());
        // SAFETY: pointers and lengths are those of a vector and an array.
        let loaded = unsafe { ffi::hubqr_load(bytes, length, area.as_mut_ptr(), area.len()) };
        let restored = unsafe { ffi::hubqr_read(bytes, length, area.as_mut_ptr(), area.len()) };
        assert!(loaded.number > 0 && restored.number > 0);
        assert_eq!((loaded.heard, loaded.job), (0, at(0, 0)));
        assert_eq!(restored.job, at(0, 0));
    }
}

#[test]
fn fetch_refuses() {
    let fetch = |job, words: usize, bytes: usize, number| {
        refused(
            |lent| hubqr::fetch(job, &lent.area[..words], &mut lent.buffer[..bytes]),
            number,
        );
    };
    for job in NO_JOBS {
        fetch(job, 511, 0, AreaTooShort);
        fetch(job, 512, 0, NoSuchJob);
        fetch(job, 512, 2049, NoSuchJob);
    }
    fetch(at(0, 0), 0, 0, AreaTooShort);
    for job in [at(119, 0), at(119, 119), at(5, 5), at(0, 0)] {
        fetch(job, 512, 0, Unfinished);
        fetch(job, 512, 2049, Unfinished);
    }
    for job in [at(120, 0), at(120, 120)] {
        fetch(job, 512, 2048, BufferTooShort);
        fetch(job, 512, 0, BufferTooShort);
        fetch(job, 512, 2049, NotTriangular);
    }
}

#[test]
fn read_refuses() {
    let good = result_with(0, 1);
    let longer = [good.clone(), vec![0]].concat();
    for (record, number) in [
        (vec![], WrongKind),
        (mixed_matrix(), WrongKind),
        (good[..2048].to_vec(), WrongLength),
        (longer, WrongLength),
        (result_with(0, -1), NotTriangular),
        (result_with(14 * 17, -1), NotTriangular),
        (result_with(16, 1), NotTriangular),
        (result_with(255 - 1, i32::MIN), NotTriangular),
    ] {
        refused(|lent| hubqr::read(&record, &mut lent.area), number);
    }
    refused(
        |lent| hubqr::read(&result_with(0, -1), &mut lent.area[..511]),
        AreaTooShort,
    );
    let last = hubqr::read(&result_with(255, -1), &mut [0; AREA_WORDS]);
    assert!(last.is_ok(), "the sixteenth diagonal word may be negative");
}

#[test]
fn whole_refuses() {
    let whole = |record: &[u8], words: usize, bytes: usize, number| {
        refused(
            |lent| hubqr::whole(record, &mut lent.area[..words], &mut lent.buffer[..bytes]),
            number,
        );
    };
    for (record, number) in no_matrices() {
        whole(&record, 0, 0, number);
        whole(&record, 512, 2049, number);
    }
    for record in [mixed_matrix(), hum(), silence()] {
        whole(&record, 511, 0, AreaTooShort);
        whole(&record, 0, 2049, AreaTooShort);
        whole(&record, 512, 2048, BufferTooShort);
        whole(&record, 512, 0, BufferTooShort);
    }
    for record in [hum(), silence()] {
        whole(&record, 512, 2049, NoneHeard);
    }
}
