//! What the calls of a test came to.

use std::collections::BTreeMap;

use reference::accuracy::Errors;
use reference::desk::{Desk, DeskReply};

use super::role::{self, FITTER, OPERATOR};
use super::{Call, Fetched};
use crate::common::refusals;

#[derive(Debug, Default)]
pub struct Seen {
    /// How many of each call were accepted, and how many made.
    pub calls: BTreeMap<&'static str, (u64, u64)>,
    /// How many of each role's calls were allowed, and how many made.
    pub roles: BTreeMap<&'static str, (u64, u64)>,
    /// How often each number was answered.
    pub refusals: BTreeMap<u8, u64>,
    /// The turns granted to all sectors.
    pub granted: u64,
    pub matrices: Matrices,
    /// The matrices worked to the end, and the largest of their errors.
    pub worked: u64,
    pub worst: Errors,
}

/// What became of the matrices that were handed in.
#[derive(Debug, Default)]
pub struct Matrices {
    /// Those that were loaded at once.
    pub loaded: u64,
    /// Those that had to wait, and of these the ones that came in the place of another.
    pub waited: u64,
    pub replaced: u64,
    /// Those that a Fetch brought in.
    pub brought_in: u64,
    /// How often a fitter's Fetch left one waiting.
    pub left_waiting: u64,
    /// Those whose results were fetched in step, of these the ones that had been brought in, and the
    /// Fetches that were repeated.
    pub fetched: u64,
    pub fetched_brought_in: u64,
    pub fetched_again: u64,
    /// The Fetches in step, first or repeated, that were a fitter's.
    pub fetched_by_fitters: u64,
}

impl Matrices {
    /// An accepted call.
    fn count(&mut self, role: u32, desk: &Desk, call: &Call) {
        let Some(sector) = call.sector() else { return };
        let waits = desk.seats[sector as usize].waits != 0;
        match (call, call.loads(role, desk)) {
            (Call::HandIn { .. }, Some(_)) => self.loaded += 1,
            (Call::HandIn { .. }, None) => {
                self.waited += 1;
                self.replaced += u64::from(waits);
            }
            (Call::Fetch { .. }, Some(_)) => self.brought_in += 1,
            (Call::Fetch { .. }, None) => self.left_waiting += u64::from(waits),
            _ => {}
        }
    }

    /// A Fetch in step.
    pub fn count_fetched(&mut self, role: u32, fetched: Fetched) {
        self.fetched_by_fitters += u64::from(role == FITTER);
        match fetched {
            Fetched::First { brought_in } => {
                self.fetched += 1;
                self.fetched_brought_in += u64::from(brought_in);
            }
            Fetched::Again => self.fetched_again += 1,
        }
    }

    fn print(&self) {
        let Matrices {
            loaded,
            waited,
            replaced,
            brought_in,
            left_waiting,
            fetched,
            fetched_brought_in,
            fetched_again,
            fetched_by_fitters,
        } = self;
        println!(
            "{loaded} matrices loaded at once, {waited} had to wait, {replaced} of them in the \
             place of another, {brought_in} brought in; {fetched} results fetched in step, \
             {fetched_brought_in} of matrices brought in, {fetched_again} fetched again"
        );
        if left_waiting + fetched_by_fitters > 0 {
            println!(
                "fitters: {fetched_by_fitters} results fetched in step, first or again, and \
                 {left_waiting} times one left waiting"
            );
        }
    }
}

impl Seen {
    pub fn print(&self, test: &str) {
        let calls = self.calls.iter();
        let calls: Vec<String> = calls
            .map(|(name, (accepted, made))| format!("{accepted} of {made} {name}"))
            .collect();
        let refusals = refusals::listed(&self.refusals);
        println!("\n{test}: accepted {}{refusals}", calls.join(", "));
        if self.roles.keys().any(|name| *name != role::name(OPERATOR)) {
            self.print_roles();
        }
        if self.matrices.loaded > 0 {
            self.matrices.print();
        }
        if self.worked > 0 {
            let Seen {
                granted, worked, ..
            } = self;
            let [product, rows, columns] = self.worst.shares();
            println!(
                "{granted} turns granted, {worked} matrices worked to the end, the largest error \
                 as a share of 2^44: Q times R {product:.6}, rows of Q {rows:.6}, columns of R \
                 {columns:.6}"
            );
        }
    }

    fn print_roles(&self) {
        let roles = self.roles.iter();
        let roles: Vec<String> = roles
            .map(|(name, (allowed, made))| format!("{allowed} of {made} to {name}"))
            .collect();
        println!("calls allowed: {}", roles.join(", "));
    }

    /// Fails the test unless these are the numbers that were answered.
    pub fn assert_numbers(&self, numbers: &[u8]) {
        refusals::assert_numbers(&self.refusals, numbers);
    }

    /// A call, with the role and the desk that it was handed.
    pub(super) fn count(&mut self, role: u32, desk: &Desk, call: &Call, reply: &DeskReply) {
        let (allowed, made) = self.roles.entry(role::name(role)).or_default();
        *allowed += u64::from(reply.number != 15);
        *made += 1;
        let (accepted, made) = self.calls.entry(call.name()).or_default();
        *made += 1;
        if reply.number == 0 {
            *accepted += 1;
            self.granted += u64::from(reply.count);
            self.matrices.count(role, desk, call);
        } else {
            *self.refusals.entry(reply.number).or_default() += 1;
        }
    }
}
