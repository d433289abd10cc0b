//! Load and Whole of one record, held to the antennas that are heard.

use reference::accuracy::Errors;
use reference::clamps::Clamps;
use reference::job::Job;
use reference::records::MATRIX_RECORD;
use reference::replies::{LoadReply, WholeReply};

use super::{Both, Case};

/// The heard byte of a matrix record, looked up in its bytes: element (k, k) is the one of number
/// 9 k, and its real part stands first.
pub fn heard_in(record: &[u8; MATRIX_RECORD]) -> u8 {
    let part = |at: usize| i16::from_be_bytes([record[at], record[at + 1]]);
    let heard = (0..8).filter(|k| part(1 + 4 * 9 * k) >= 17);
    heard.map(|k| 1 << k).sum()
}

/// What records came to.
#[derive(Debug, Default, PartialEq, Eq)]
pub struct Heard {
    pub accepted: u64,
    pub refused: u64,
    pub worst: Errors,
}

impl Heard {
    pub fn print(&self, test: &str) {
        let Heard {
            accepted, refused, ..
        } = self;
        println!("\n{test}: {accepted} matrices accepted, {refused} refused with 4");
        if *accepted > 0 {
            let [product, rows, columns] = self.worst.shares();
            println!(
                "the largest error as a share of 2^44: Q times R {product:.6}, rows of Q \
                 {rows:.6}, columns of R {columns:.6}"
            );
        }
    }

    /// Loads a record and works it at once. Where an antenna is heard, both calls answer the heard
    /// byte and the result is accurate; where none is, both answer number 4 and change nothing.
    pub fn require(&mut self, case: &Case, record: &[u8; MATRIX_RECORD], heard: u8) {
        let number = if heard == 0 { 4 } else { 0 };
        let mut both = Both::new(case.clone());
        let before = (both.area(), both.fetched());
        let reply = both.load(record);
        let loaded = LoadReply {
            number,
            heard,
            job: Job::LOADED,
        };
        both.require(reply == loaded, &format!("Load {reply:?}, due {loaded:?}"));
        let reply = both.whole(record);
        let worked = WholeReply {
            number,
            heard,
            clamps: Clamps::NONE,
        };
        both.require(reply == worked, &format!("Whole {reply:?}, due {worked:?}"));
        if heard == 0 {
            let same = (both.area(), both.fetched()) == before;
            both.require(same, "a refused call changed something");
            self.refused += 1;
        } else {
            self.worst = self.worst.max(both.errors());
            self.accepted += 1;
        }
    }
}
