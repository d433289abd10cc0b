//! A host that makes calls and writes a line for each: what it handed over, the reply, and digests
//! of the memory that the call may write to.

use super::digest;
use crate::calls;
use crate::clamps::Clamps;
use crate::job::Job;
use crate::replies::{LoadReply, RunReply};

#[derive(Default)]
pub struct Host {
    written: String,
}

impl Host {
    pub fn written(self) -> String {
        self.written
    }

    pub fn write(&mut self, line: &str) {
        self.written += line;
        self.written += "\n";
    }

    /// Answers the refusal number, or 0.
    pub fn load(&mut self, record: &[u8], area: &mut [i32]) -> u8 {
        let LoadReply { number, heard, job } = calls::load(record, area);
        self.write(&format!(
            "  Load of {} bytes into {} words: number {number}, job {}, heard {heard}; area {}",
            record.len(),
            area.len(),
            pair(job),
            digest::of_words(area)
        ));
        number
    }

    /// Answers the next job.
    pub fn run(&mut self, from: Job, allowance: u16, area: &mut [i32]) -> Job {
        let RunReply {
            number,
            job,
            count,
            clamps: Clamps { r, q },
        } = calls::run(from, allowance, area);
        self.write(&format!(
            "  Run of {allowance} from job {}: number {number}, next job {}, count {count}, \
             clamps {r} in R, {q} in Q; area {}",
            pair(from),
            pair(job),
            digest::of_words(area)
        ));
        job
    }

    pub fn fetch(&mut self, job: Job, area: &[i32], buffer: &mut [u8]) {
        let number = calls::fetch(job, area, buffer).number;
        self.write(&format!(
            "  Fetch at job {}: number {number}; buffer {}",
            pair(job),
            digest::of_bytes(buffer)
        ));
    }
}

/// The turn number and the turns made.
fn pair(job: Job) -> String {
    format!("({}, {})", job.turn, job.made)
}
