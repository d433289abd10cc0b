//! The turns of an area one at a time, each held to the rule for what is skipped.

use reference::area::WorkArea;
use reference::clamps::Clamps;
use reference::job::Job;
use reference::schedule::{self, Turn, TURNS};

use crate::common::{Both, Case};

/// How many turns were made and skipped, and what they clamped.
#[derive(Debug, Default)]
pub struct Seen {
    pub made: u64,
    pub skipped: u64,
    pub clamps: Clamps,
}

impl Seen {
    pub fn print(&self, test: &str) {
        let Seen {
            made,
            skipped,
            clamps: Clamps { r, q },
        } = self;
        println!("\n{test}: {made} turns made, {skipped} skipped, {r} clamps in R, {q} in Q");
    }
}

/// Whether a turn has nothing to clear: its lower leading word is 0 and its upper one not negative.
pub fn is_clear(area: &WorkArea, turn: Turn) -> bool {
    area.word(turn.lower, turn.column) == 0 && area.word(turn.upper, turn.column) >= 0
}

/// A Run of one turn. Where the turn is clear it leaves the area, counts no clamp and is not made;
/// otherwise it clears its lower leading word and is made. Both use up the allowance.
pub fn one_turn(both: &mut Both, job: Job, seen: &mut Seen) -> Job {
    let turn = schedule::turns()[job.turn as usize];
    let before = both.area();
    let clear = is_clear(&before, turn);
    let reply = both.run(job, 1);
    let after = both.area();
    both.require(reply.number == 0 && reply.count == 1, "a Run of one turn");
    if clear {
        both.require(after == before, "a skipped turn changed a word");
        both.require(reply.clamps == Clamps::NONE, "a skipped turn clamped");
        seen.skipped += 1;
    } else {
        both.require(after != before, "a turn changed nothing");
        both.require(is_clear(&after, turn), "a turn left its column as it was");
        seen.made += 1;
    }
    let due = Job::new(job.turn + 1, job.made + u32::from(!clear));
    both.require(reply.job == due, &format!("{:?}, due {due:?}", reply.job));
    seen.clamps += reply.clamps;
    reply.job
}

/// The areas and jobs of a matrix record after each number of turns from 0 to 120.
pub struct Trace {
    pub areas: Vec<WorkArea>,
    pub jobs: Vec<Job>,
}

impl Trace {
    pub fn of_record(case: Case, record: &[u8], seen: &mut Seen) -> Self {
        let mut both = Both::new(case);
        let reply = both.load(record);
        both.require(reply.number == 0, "Load refused a matrix that was heard");
        both.require(reply.job == Job::new(0, 0), "Load answered another job");
        let mut trace = Trace {
            areas: vec![both.area()],
            jobs: vec![reply.job],
        };
        for _ in 0..TURNS {
            let job = one_turn(&mut both, trace.jobs[trace.jobs.len() - 1], seen);
            trace.areas.push(both.area());
            trace.jobs.push(job);
        }
        trace
    }

    /// The area and the job at the end.
    pub fn end(&self) -> (&WorkArea, Job) {
        let last = TURNS as usize;
        (&self.areas[last], self.jobs[last])
    }
}
