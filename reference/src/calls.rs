//! The five calls of the factorization, each with its tests in the order of the specification.
//!
//! A refused call changes nothing: every call makes all its tests before it writes.

use std::sync::LazyLock;

use crate::area::{WorkArea, AREA_WORDS};
use crate::clamps::Clamps;
use crate::job::Job;
use crate::matrix::Matrix;
use crate::records::{parse_matrix, parse_result, write_result, RESULT_RECORD};
use crate::replies::{FetchReply, LoadReply, ReadReply, Refusal, RunReply, WholeReply};
use crate::rotation::rotate;
use crate::schedule::{self, Turn, TURNS};

static SCHEDULE: LazyLock<Vec<Turn>> = LazyLock::new(schedule::turns);

/// Load: fills the area from a matrix record.
pub fn load(record: &[u8], area: &mut [i32]) -> LoadReply {
    accept_load(record, area).unwrap_or_else(LoadReply::from)
}

/// Run: makes the turns that remain, at most `allowance` of them. A skipped turn uses up allowance
/// like any other.
pub fn run(job: Job, allowance: u16, area: &mut [i32]) -> RunReply {
    accept_run(job, allowance, area).unwrap_or_else(|refusal| RunReply::refused(refusal, job))
}

/// Fetch: writes the result record of a worked area to the first 2,049 bytes of the buffer.
pub fn fetch(job: Job, area: &[i32], buffer: &mut [u8]) -> FetchReply {
    accept_fetch(job, area, buffer).unwrap_or_else(FetchReply::from)
}

/// Read: fills the area from a result record.
pub fn read(record: &[u8], area: &mut [i32]) -> ReadReply {
    accept_read(record, area).unwrap_or_else(ReadReply::from)
}

/// Whole: Load, all turns and Fetch in one call.
pub fn whole(record: &[u8], area: &mut [i32], buffer: &mut [u8]) -> WholeReply {
    accept_whole(record, area, buffer).unwrap_or_else(WholeReply::from)
}

fn accept_load(record: &[u8], area: &mut [i32]) -> Result<LoadReply, Refusal> {
    let (matrix, area) = test_load(record, area)?;
    Ok(fill(&matrix, area))
}

/// Load's tests, the matrix of the record, and the words that a Load may touch.
pub(crate) fn test_load<'a>(
    record: &[u8],
    area: &'a mut [i32],
) -> Result<(Matrix, &'a mut [i32; AREA_WORDS]), Refusal> {
    let matrix = parse_matrix(record)?;
    let area = lent_area(area)?;
    test_heard(&matrix)?;
    Ok((matrix, area))
}

/// Load without its tests.
pub(crate) fn fill(matrix: &Matrix, area: &mut [i32; AREA_WORDS]) -> LoadReply {
    *area = WorkArea::loaded(&matrix.to_real()).to_words();
    LoadReply {
        number: 0,
        heard: matrix.heard(),
        job: Job::LOADED,
    }
}

pub(crate) fn accept_run(job: Job, allowance: u16, area: &mut [i32]) -> Result<RunReply, Refusal> {
    let area = lent_area(area)?;
    test_job(job)?;
    let count = u32::from(allowance).min(TURNS - job.turn);
    let mut work = WorkArea::from_words(area);
    let (made, clamps) = make_turns(&mut work, job.turn, count);
    *area = work.to_words();
    Ok(RunReply {
        number: 0,
        job: job.after(count, made),
        count,
        clamps,
    })
}

pub(crate) fn accept_fetch(
    job: Job,
    area: &[i32],
    buffer: &mut [u8],
) -> Result<FetchReply, Refusal> {
    let words = area.first_chunk().ok_or(Refusal::Area)?;
    test_job(job)?;
    if !job.is_finished() {
        return Err(Refusal::Unfinished);
    }
    let buffer = lent_buffer(buffer)?;
    let work = WorkArea::from_words(words);
    test_triangle(&work)?;
    *buffer = write_result(&work);
    Ok(FetchReply { number: 0 })
}

fn accept_read(record: &[u8], area: &mut [i32]) -> Result<ReadReply, Refusal> {
    let work = parse_result(record)?;
    let area = lent_area(area)?;
    test_triangle(&work)?;
    *area = work.to_words();
    Ok(ReadReply {
        number: 0,
        job: Job::READ,
    })
}

fn accept_whole(record: &[u8], area: &mut [i32], buffer: &mut [u8]) -> Result<WholeReply, Refusal> {
    let matrix = parse_matrix(record)?;
    let area = lent_area(area)?;
    let buffer = lent_buffer(buffer)?;
    test_heard(&matrix)?;
    let mut work = WorkArea::loaded(&matrix.to_real());
    let (_, clamps) = make_turns(&mut work, 0, TURNS);
    *area = work.to_words();
    *buffer = write_result(&work);
    Ok(WholeReply {
        number: 0,
        heard: matrix.heard(),
        clamps,
    })
}

/// Takes `count` turns from turn number `first` on, and answers how many of them were not skipped,
/// and their clamps.
fn make_turns(work: &mut WorkArea, first: u32, count: u32) -> (u32, Clamps) {
    let turns = SCHEDULE.iter().skip(first as usize).take(count as usize);
    let made: Vec<Clamps> = turns.filter_map(|&turn| rotate(work, turn)).collect();
    (made.len() as u32, made.into_iter().sum())
}

/// Test 3, and the words that a call may touch.
pub(crate) fn lent_area(area: &mut [i32]) -> Result<&mut [i32; AREA_WORDS], Refusal> {
    area.first_chunk_mut().ok_or(Refusal::Area)
}

/// Test 4.
pub(crate) fn test_heard(matrix: &Matrix) -> Result<(), Refusal> {
    if matrix.none_heard() {
        Err(Refusal::NoneHeard)
    } else {
        Ok(())
    }
}

/// Test 5.
pub(crate) fn test_job(job: Job) -> Result<(), Refusal> {
    if job.exists() {
        Ok(())
    } else {
        Err(Refusal::Job)
    }
}

/// Test 7, and the bytes that a call may touch.
fn lent_buffer(buffer: &mut [u8]) -> Result<&mut [u8; RESULT_RECORD], Refusal> {
    buffer.first_chunk_mut().ok_or(Refusal::Buffer)
}

/// Test 8.
pub(crate) fn test_triangle(work: &WorkArea) -> Result<(), Refusal> {
    if work.is_upper_triangular() && work.has_nonnegative_diagonal() {
        Ok(())
    } else {
        Err(Refusal::Triangle)
    }
}

#[cfg(test)]
mod tests {
    use super::*;

    /// All parts -1, which no antenna is heard with.
    const HUM: [u8; 257] = {
        let mut record = [0xFF; 257];
        record[0] = 1;
        record
    };

    fn matrix_record(fill: u8) -> [u8; 257] {
        let mut record = [fill; 257];
        record[0] = 1;
        record
    }

    fn result_record(first_word: i32) -> [u8; 2049] {
        let mut record = [0; 2049];
        record[0] = 2;
        record[1..5].copy_from_slice(&first_word.to_be_bytes());
        record
    }

    #[test]
    fn load_makes_its_tests_in_order() {
        let (short, full) = (&mut [0; 511][..], &mut [0; 512][..]);
        assert_eq!(load(&[], short).number, 1);
        assert_eq!(load(&[2; 256], short).number, 1);
        assert_eq!(load(&[1; 256], short).number, 2);
        for unheard in [matrix_record(0), HUM] {
            assert_eq!(load(&unheard, short).number, 3);
            assert_eq!(load(&unheard, full), LoadReply::from(Refusal::NoneHeard));
        }
        let accepted = LoadReply {
            number: 0,
            heard: 255,
            job: Job::new(0, 0),
        };
        assert_eq!(load(&matrix_record(9), full), accepted);
    }

    #[test]
    fn run_makes_its_tests_in_order() {
        let (short, full) = (&mut [0; 511][..], &mut [0; 512][..]);
        for job in [(121, 0), (5, 6), (120, 121), (u32::MAX, u32::MAX)] {
            let job = Job::new(job.0, job.1);
            assert_eq!(run(job, 7, short), RunReply::refused(Refusal::Area, job));
            assert_eq!(run(job, 7, full), RunReply::refused(Refusal::Job, job));
        }
        for made in [0, 7, 120] {
            let at_the_end = RunReply {
                job: Job::new(120, made),
                ..RunReply::default()
            };
            assert_eq!(run(at_the_end.job, 7, full), at_the_end);
        }
    }

    #[test]
    fn run_makes_the_smaller_of_allowance_and_rest() {
        let mut area = [0; 512];
        for (turn, allowance, count) in [
            (0, 0, 0),
            (0, 119, 119),
            (0, 120, 120),
            (0, 121, 120),
            (119, 65535, 1),
        ] {
            let reply = run(Job::new(turn, 0), allowance, &mut area);
            assert_eq!((reply.count, reply.job.turn), (count, turn + count));
        }
    }

    /// Of an area of zeros but for one word of the first column, that word's turn is made, and the
    /// turns that bring it to the top.
    #[test]
    fn run_adds_the_turns_that_were_not_skipped() {
        for made in [0, 1, 3] {
            let mut area = [0; 512];
            area[32 * 15] = 1 << 20;
            let reply = run(Job::new(3, made), 4, &mut area);
            assert_eq!((reply.count, reply.job), (4, Job::new(7, made)));
            let reply = run(reply.job, 1, &mut area);
            assert_eq!((reply.count, reply.job), (1, Job::new(8, made + 1)));
            let reply = run(reply.job, 112, &mut area);
            assert_eq!((reply.count, reply.job), (112, Job::new(120, made + 4)));
        }
    }

    #[test]
    fn fetch_makes_its_tests_in_order() {
        let mut damaged = [0; 512];
        damaged[0] = -1;
        let buffer = &mut [0; 2049][..];
        for job in [(121, 0), (5, 6), (120, 121)] {
            let job = Job::new(job.0, job.1);
            assert_eq!(fetch(job, &damaged[..511], &mut buffer[..5]).number, 3);
            assert_eq!(fetch(job, &damaged, &mut buffer[..5]).number, 5);
        }
        let early = Job::new(119, 119);
        assert_eq!(fetch(early, &damaged, &mut buffer[..5]).number, 6);
        for made in [0, 120] {
            let job = Job::new(120, made);
            assert_eq!(fetch(job, &damaged, &mut buffer[..2048]).number, 7);
            assert_eq!(fetch(job, &damaged, buffer).number, 8);
            assert_eq!(fetch(job, &[0; 512], buffer).number, 0);
        }
    }

    #[test]
    fn read_makes_its_tests_in_order() {
        let (short, full) = (&mut [0; 511][..], &mut [0; 512][..]);
        assert_eq!(read(&[], short).number, 1);
        assert_eq!(read(&[1; 2049], short).number, 1);
        assert_eq!(read(&[2; 2048], short).number, 2);
        assert_eq!(read(&result_record(-1), short).number, 3);
        assert_eq!(read(&result_record(-1), full).number, 8);
        let accepted = ReadReply {
            number: 0,
            job: Job::new(120, 0),
        };
        assert_eq!(read(&result_record(0), full), accepted);
    }

    #[test]
    fn whole_makes_its_tests_in_order() {
        let (short, full) = (&mut [0; 511][..], &mut [0; 512][..]);
        let buffer = &mut [0; 2049][..];
        assert_eq!(whole(&[], short, &mut []).number, 1);
        assert_eq!(whole(&[1], short, &mut []).number, 2);
        for unheard in [matrix_record(0), HUM] {
            assert_eq!(whole(&unheard, short, &mut []).number, 3);
            assert_eq!(whole(&unheard, full, &mut []).number, 7);
            let refused = WholeReply::from(Refusal::NoneHeard);
            assert_eq!(whole(&unheard, full, buffer), refused);
        }
        let accepted = WholeReply {
            number: 0,
            heard: 255,
            clamps: Clamps::NONE,
        };
        assert_eq!(whole(&matrix_record(1), full, buffer), accepted);
    }

    #[test]
    fn a_matrix_that_no_antenna_is_heard_with_leaves_everything_untouched() {
        let (mut area, mut buffer) = ([-7; 512], [0xEE; 2049]);
        assert_eq!(load(&HUM, &mut area).number, 4);
        assert_eq!(whole(&HUM, &mut area, &mut buffer).number, 4);
        assert_eq!(area, [-7; 512]);
        assert_eq!(buffer, [0xEE; 2049]);
    }

    #[test]
    fn calls_leave_what_lies_beyond_untouched() {
        let (mut area, mut buffer) = ([-7; 520], [0xEE; 2060]);
        assert_eq!(whole(&matrix_record(3), &mut area, &mut buffer).number, 0);
        assert_eq!(area[512..], [-7; 8]);
        assert_eq!(buffer[2049..], [0xEE; 11]);
    }
}
