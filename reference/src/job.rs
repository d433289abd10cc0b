//! The job: what a host keeps beside an area and hands from call to call.

use crate::schedule::TURNS;

/// How far the work on an area has come.
#[derive(Debug, Clone, Copy, Default, PartialEq, Eq)]
pub struct Job {
    /// The turn number: that of the next turn, and 120 when none is left.
    pub turn: u32,
    /// The turns truly made since Load. A turn that was skipped counts in the turn number alone.
    pub made: u32,
}

impl Job {
    /// What Load answers.
    pub const LOADED: Job = Job::new(0, 0);

    /// What Read answers. Nobody knows what the record cost.
    pub const READ: Job = Job::new(TURNS, 0);

    pub const fn new(turn: u32, made: u32) -> Self {
        Job { turn, made }
    }

    /// Whether a job can be like this: no turn number is above 120, and no more turns are made than
    /// it says.
    pub fn exists(self) -> bool {
        self.turn <= TURNS && self.made <= self.turn
    }

    /// Whether no turn is left.
    pub fn is_finished(self) -> bool {
        self.turn == TURNS
    }

    /// The job some turns later, of which these were truly made.
    pub fn after(self, count: u32, made: u32) -> Self {
        Job::new(self.turn + count, self.made + made)
    }
}

#[cfg(test)]
mod tests {
    use super::*;

    #[test]
    fn a_job_has_at_most_120_turns_and_no_more_made() {
        for job in [(0, 0), (1, 0), (5, 5), (119, 119), (120, 0), (120, 120)] {
            assert!(Job::new(job.0, job.1).exists(), "{job:?}");
        }
        for job in [(0, 1), (5, 6), (120, 121), (121, 0), (121, 121)] {
            assert!(!Job::new(job.0, job.1).exists(), "{job:?}");
        }
        for beyond in [122, u32::MAX - 1, u32::MAX] {
            assert!(!Job::new(beyond, 0).exists() && !Job::new(120, beyond).exists());
            assert!(!Job::new(beyond, beyond).exists());
        }
    }

    #[test]
    fn a_job_is_finished_at_turn_120() {
        assert!(Job::READ.is_finished() && Job::new(120, 120).is_finished());
        assert!(!Job::LOADED.is_finished() && !Job::new(119, 119).is_finished());
    }
}
