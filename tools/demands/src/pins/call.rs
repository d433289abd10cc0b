//! The calls offered to others, clause by clause, and every other public function.
use super::crates::{Code, Crates};
use super::sum::sum;
use crate::item::Sort;
use crate::scan::rattle::Clause;
use crate::tree::Found;

/// How many wrong programs a function has, besides those that edit its clauses.
const WANTED: usize = 2;

pub struct Call {
    pub name: String,
    pub path: String,
    /// each `ensures`, the sum of its text, and the wrong programs that make it false
    pub clauses: Vec<(String, String, Vec<usize>)>,
    /// the wrong programs of the function that edit something else
    pub others: Vec<usize>,
    pub faults: Vec<String>,
}

/// The calls offered to others: every clause is edited, and two more wrong programs are refused.
pub fn offered(crates: &Crates, names: &[Found]) -> Vec<Call> {
    let calls = names.iter().filter_map(|found| {
        let is = |code: &&Code| code.path == found.path && code.full == found.name;
        crates.code.iter().find(is)
    });
    calls.map(|code| call(crates, code)).collect()
}

fn call(crates: &Crates, code: &Code) -> Call {
    let named = crates.edits_of(code);
    let mut others = named.clone();
    let mut clauses = Vec::new();
    let mut faults = Vec::new();
    for clause in &code.inner.clauses {
        let span = [code.span_of(&clause.lines)];
        let edits = |at: &usize| crates.edits[*at].stands_in(&span);
        let pins: Vec<usize> = named.iter().copied().filter(edits).collect();
        others.retain(|at| !pins.contains(at));
        faults.extend(clause_fault(code, clause, &pins));
        if clause.ensures {
            clauses.push((clause.title.clone(), sum(crates.texts, &span), pins));
        }
    }
    let besides = "besides those that edit its clauses";
    faults.extend(too_few(code, others.len(), besides));
    Call {
        name: code.logged.clone(),
        path: code.path.clone(),
        clauses,
        others,
        faults,
    }
}

fn clause_fault(code: &Code, clause: &Clause, pins: &[usize]) -> Option<String> {
    let at = format!("{}:{}: {}", code.path, clause.lines.start + 1, code.logged);
    let title = &clause.title;
    match (clause.ensures, pins.is_empty()) {
        (false, _) => Some(format!(
            "{at} has a `requires`, and a call offered to others may have none"
        )),
        (true, true) => Some(format!(
            "{at}: no wrong program with `fn:` of it makes its clause `{title}` false"
        )),
        (true, false) => None,
    }
}

/// The other public functions of the libraries that have a contract.
pub fn public(crates: &Crates, offered: &[Call]) -> Vec<Call> {
    let library = |code: &Code| {
        let top = format!("crates/{}/src/lib.rt", code.of_crate);
        crates.texts.contains_key(&top)
    };
    let is_other = |code: &&Code| {
        code.inner.public
            && code.inner.sort == Sort::Contract
            && library(code)
            && !offered.iter().any(|call| call.name == code.logged)
    };
    let other = |code: &Code| {
        let others = crates.edits_of(code);
        let faults = too_few(code, others.len(), "with `fn:` of it");
        Call {
            name: code.logged.clone(),
            path: code.path.clone(),
            clauses: Vec::new(),
            others,
            faults: faults.into_iter().collect(),
        }
    };
    crates.code.iter().filter(is_other).map(other).collect()
}

fn too_few(code: &Code, count: usize, which: &str) -> Option<String> {
    (count < WANTED).then(|| {
        format!(
            "{}:{}: {} has {count} of {WANTED} wrong programs {which}",
            code.path,
            code.inner.lines.start + 1,
            code.logged
        )
    })
}

#[cfg(test)]
mod tests {
    use super::super::crates::tests::tree;
    use super::*;

    const SOURCE: &str = "
const ONE: u8 = 1;

pub fn load() -> u8
    ensures size { 10 }
    ensures fits { 20 }
{
    30
}

pub fn inner() -> u8
    requires { 40 }
    ensures { 50 }
{
    60
}

fn hidden() -> u8
    ensures { 70 }
{
    80
}
";

    fn edits(pairs: &[(&str, &str)]) -> String {
        let edit = |(at, (function, old)): (usize, &(&str, &str))| {
            format!("wrong: w{at}\nfn: {function}\nfile: src/lib.rt\nold: {old}\nnew: 0\n")
        };
        pairs.iter().enumerate().map(edit).collect()
    }

    /// The faults of the calls, `load` or `inner` being offered.
    fn faults(name: &str, pairs: &[(&str, &str)]) -> (Vec<String>, Vec<String>) {
        let texts = tree(&[
            ("crates/a/src/lib.rt", SOURCE),
            ("crates/a/must-fail/e.edit", &edits(pairs)),
        ]);
        let crates = Crates::new(&texts).0;
        let found = Found {
            path: "crates/a/src/lib.rt".to_string(),
            name: format!("a.src.lib.{name}"),
        };
        let calls = offered(&crates, &[found]);
        assert_eq!(calls.len(), 1);
        let others = public(&crates, &calls);
        let all = |calls: Vec<Call>| calls.into_iter().flat_map(|call| call.faults).collect();
        (all(calls), all(others))
    }

    #[test]
    fn every_clause_and_two_more() {
        let pairs = [
            ("load", "10"),
            ("load", "20"),
            ("load", "30"),
            ("load", "u8 = 1"),
        ];
        assert!(faults("load", &pairs).0.is_empty());
        let said = faults("load", &[("load", "10"), ("inner", "20"), ("load", "30")]).0;
        assert_eq!(said.len(), 2, "{said:?}");
        assert!(said[0].contains("lib.rt:6: a::load: no wrong program with `fn:` of it makes its clause `ensures fits` false"));
        assert!(said[1].contains("lib.rt:4: a::load has 1 of 2 wrong programs besides"));
    }

    #[test]
    fn an_offered_call_requires_nothing() {
        let pairs = [("inner", "50"), ("inner", "60"), ("inner", "u8 = 1")];
        let said = faults("inner", &pairs).0;
        assert!(
            said[0].contains("lib.rt:12: a::inner has a `requires`"),
            "{said:?}"
        );
    }

    #[test]
    fn other_public_functions() {
        let said = faults("load", &[("inner", "60")]).1;
        assert_eq!(
            said,
            ["crates/a/src/lib.rt:11: a::inner has 1 of 2 wrong programs with `fn:` of it"]
        );
        assert!(faults("load", &[("inner", "60"), ("inner", "50")])
            .1
            .is_empty());
    }
}
