//! Other rules that a builder could take for those of the specification, and how often a test would
//! have noticed each.

use std::fmt::Debug;

/// In how many comparisons each of the other rules gave something else.
#[derive(Debug)]
pub struct Noticed<Rule, const RULES: usize> {
    rules: [Rule; RULES],
    differing: [u64; RULES],
}

impl<Rule: Copy + Debug, const RULES: usize> Noticed<Rule, RULES> {
    pub const fn none(rules: [Rule; RULES]) -> Self {
        Noticed {
            rules,
            differing: [0; RULES],
        }
    }

    pub fn look(&mut self, differs: impl Fn(Rule) -> bool) {
        for (count, rule) in self.differing.iter_mut().zip(self.rules) {
            *count += u64::from(differs(rule));
        }
    }

    /// Prints how often each rule gave other answers, bits or pages. Every rule has to have done so.
    pub fn print_and_require_all_rules(&self, test: &str, what: &str) {
        let counts = self.differing.iter().zip(self.rules);
        let counts: Vec<String> = counts.map(|(n, rule)| format!("{rule:?} {n}")).collect();
        println!("other {what} by other rules: {}", counts.join(", "));
        let all = self.differing.iter().all(|count| *count > 0);
        assert!(all, "{test}: a rule was not told apart");
    }
}
