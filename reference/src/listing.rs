//! What the program `cases` writes: the run-only cases of the specification, with a line for each
//! call.

mod digest;
mod host;
mod sample;

use crate::area::AREA_WORDS;
use crate::job::Job;
use crate::records::{MATRIX_RECORD, RESULT_RECORD};
use host::Host;
use sample::Sample;

/// What stands in each word of an area and each byte of a buffer before the first call.
const BEFORE: u8 = 7;

pub fn listing() -> String {
    let mut host = Host::default();
    host.write(Sample::Full.title());
    sizes(&mut host, Sample::Full);
    for allowance in [119, 120, 121] {
        turns(&mut host, Sample::Full, allowance);
    }
    for sample in [
        Sample::Single,
        Sample::Lowest,
        Sample::Hum,
        Sample::Quietest,
        Sample::OneQuietest,
        Sample::Negative,
        Sample::Diagonal,
        Sample::Corner,
    ] {
        host.write(sample.title());
        turns(&mut host, sample, 120);
    }
    host.write("Jobs, with parts of all sizes");
    jobs(&mut host, Sample::Full);
    host.written()
}

/// An area of 513 words: a record of 257 bytes, then 258 bytes, then all turns.
fn sizes(host: &mut Host, sample: Sample) {
    let record = sample.bytes();
    let mut area = [BEFORE.into(); AREA_WORDS + 1];
    host.load(&record[..MATRIX_RECORD], &mut area);
    host.load(&record, &mut area);
    host.run(Job::LOADED, 120, &mut area);
    if area[AREA_WORDS] == BEFORE.into() {
        host.write("  The 513th word is as it was");
    }
}

/// An area of 512 words. Where Load accepts the record: a Run from the first turn on, a Run of 1
/// from where it came to, and a Fetch.
fn turns(host: &mut Host, sample: Sample, allowance: u16) {
    let mut area = [BEFORE.into(); AREA_WORDS];
    if host.load(&sample.bytes()[..MATRIX_RECORD], &mut area) != 0 {
        return;
    }
    let job = host.run(Job::LOADED, allowance, &mut area);
    let job = host.run(job, 1, &mut area);
    host.fetch(job, &area, &mut [BEFORE; RESULT_RECORD]);
}

/// Jobs that do not exist at Run and Fetch, and jobs with as many turns made as there can be.
fn jobs(host: &mut Host, sample: Sample) {
    let mut area = [BEFORE.into(); AREA_WORDS];
    let mut buffer = [BEFORE; RESULT_RECORD];
    host.load(&sample.bytes()[..MATRIX_RECORD], &mut area);
    host.run(Job::new(5, 6), 7, &mut area);
    host.fetch(Job::new(5, 6), &area, &mut buffer);
    host.run(Job::new(121, 0), 7, &mut area);
    host.run(Job::new(6, 6), 0, &mut area);
    host.fetch(Job::new(119, 119), &area, &mut buffer);
    host.fetch(Job::new(120, 121), &area, &mut buffer);
}
