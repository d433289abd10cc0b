//! Something of the tree that has a name.

#[derive(Clone, Copy, PartialEq, Eq, Debug)]
pub enum Sort {
    /// a definition, field, constructor or law of `specs/`
    Spec,
    /// the same of `proofs/`
    Proof,
    /// a function of `src/` with an `ensures`
    Contract,
    /// a function of `src/` without one
    Function,
    Type,
    Constant,
    Module,
    /// a wrong program of `must-fail/`
    Wrong,
    /// a function, constant or type of a test, a tool or a host
    Outside,
}

impl Sort {
    pub fn called(self) -> &'static str {
        match self {
            Sort::Spec => "a definition of specs/",
            Sort::Proof => "a definition of proofs/",
            Sort::Contract => "a function with `ensures`",
            Sort::Function => "a function without `ensures`",
            Sort::Type => "a type",
            Sort::Constant => "a constant",
            Sort::Module => "a module",
            Sort::Wrong => "a wrong program",
            Sort::Outside => "a name outside of the crates",
        }
    }
}

#[derive(Clone, Debug)]
pub struct Item {
    pub name: String,
    /// what it stands in, from the outside in: crate, folders, file, record or type
    pub within: Vec<String>,
    /// from the top of the repository
    pub path: String,
    pub sort: Sort,
}

impl Item {
    /// Whether a name means this item: `name`, or `a.b.name` where it stands in a and, further in,
    /// in b.
    pub fn is_called(&self, name: &str) -> bool {
        let mut parts: Vec<&str> = name.split('.').collect();
        if parts.pop() != Some(self.name.as_str()) {
            return false;
        }
        let mut within = self.within.iter();
        parts.iter().all(|part| within.any(|outer| outer == part))
    }
}

#[cfg(test)]
mod tests {
    use super::*;

    #[test]
    fn a_name_may_say_what_it_stands_in() {
        let within = ["accuracy", "specs", "Demand3", "Kept"].map(String::from);
        let item = Item {
            name: "words".into(),
            within: within.into(),
            path: "crates/accuracy/specs/Demand3.antt".into(),
            sort: Sort::Spec,
        };
        for name in [
            "words",
            "Kept.words",
            "accuracy.words",
            "accuracy.Demand3.words",
        ] {
            assert!(item.is_called(name), "{name}");
        }
        for name in [
            "word",
            "WholeKept.words",
            "Kept.accuracy.words",
            "words.Kept",
        ] {
            assert!(!item.is_called(name), "{name}");
        }
    }
}
