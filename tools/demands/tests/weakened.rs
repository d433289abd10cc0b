//! A promise of this very tree that is weakened or taken away is noticed: each test changes a copy
//! of the tree, and `demands --check` has to refuse it. Most of these the prover would accept, since
//! what says less is still true.
use std::fs;
use std::path::{Path, PathBuf};
use std::process::Command;

/// What is built, and what is no part of the tree.
const SKIPPED: [&str; 3] = ["build", "out", ".git"];

/// A copy of the tree, which goes with the test.
struct Copy(PathBuf);

impl Copy {
    fn new(name: &str) -> Copy {
        let folder = format!("demands-{}-{name}", std::process::id());
        let copy = Copy(std::env::temp_dir().join(folder));
        let top = Path::new(env!("CARGO_MANIFEST_DIR")).join("../..");
        copy_folder(&top, &copy.0);
        copy
    }

    /// Replaces a text that stands once.
    fn replace(&self, path: &str, old: &str, new: &str) {
        let path = self.0.join(path);
        let text = fs::read_to_string(&path).unwrap();
        assert_eq!(text.matches(old).count(), 1, "{old} in {}", path.display());
        fs::write(path, text.replace(old, new)).unwrap();
    }

    /// Takes away the lines that begin like this.
    fn without(&self, path: &str, start: &str) {
        let path = self.0.join(path);
        let text = fs::read_to_string(&path).unwrap();
        let stays = |line: &&str| !line.trim_start().starts_with(start);
        let lines: Vec<&str> = text.lines().filter(stays).collect();
        assert!(
            lines.len() < text.lines().count(),
            "{start} in {}",
            path.display()
        );
        fs::write(path, lines.join("\n") + "\n").unwrap();
    }

    fn remove(&self, path: &str) {
        fs::remove_file(self.0.join(path)).unwrap();
    }

    /// What the check says of the copy, if it refuses it.
    fn refused(&self) -> Option<String> {
        let mut demands = Command::new(env!("CARGO_BIN_EXE_demands"));
        let output = demands.arg("--check").current_dir(&self.0).output();
        let output = output.expect("demands can be run");
        let said = String::from_utf8_lossy(&output.stderr).into_owned();
        (!output.status.success()).then_some(said)
    }
}

impl Drop for Copy {
    fn drop(&mut self) {
        // A copy that is left behind disturbs nobody.
        let _ = fs::remove_dir_all(&self.0);
    }
}

fn copy_folder(from: &Path, to: &Path) {
    fs::create_dir_all(to).unwrap();
    for entry in fs::read_dir(from).unwrap() {
        let entry = entry.unwrap();
        let name = entry.file_name();
        if SKIPPED.iter().any(|skipped| *skipped == name) {
            continue;
        }
        if entry.file_type().unwrap().is_dir() {
            copy_folder(&entry.path(), &to.join(name));
        } else {
            fs::copy(entry.path(), to.join(name)).unwrap();
        }
    }
}

/// Makes the change in a copy, and asks for a refusal that has this text.
fn refuses(name: &str, said: &str, change: impl Fn(&Copy)) {
    let copy = Copy::new(name);
    change(&copy);
    let found = copy.refused();
    let found = found.unwrap_or_else(|| panic!("{name}: nobody noticed"));
    assert!(found.contains(said), "{name}: {found}");
}

#[test]
fn the_tree_itself_is_accepted() {
    let copy = Copy::new("itself");
    assert_eq!(copy.refused(), None);
}

#[test]
fn contracts_that_say_less() {
    let face = "crates/hubqr/src/lib.rt";
    refuses("clause", "fetch_of_any_job", |copy| {
        let clause =
            "record { number = result; buffer = buffer.new } ≡ fetch_of job area.now buffer.old";
        copy.replace(face, clause, "buffer.new ≡ buffer.new");
    });
    refuses("no-clause", "hubqr_read", |copy| {
        let clause = "record { reply = result; workspace = area.new } ≡ read_of bytes.now area.old";
        let line = format!("    ensures {{ {clause} }}\n");
        copy.replace(face, &line, "");
    });
}

#[test]
fn theorems_that_say_less() {
    let demand = "crates/accuracy/specs/Demand3.antt";
    refuses("no-k", "docs/PINS.md", |copy| {
        copy.replace(
            demand,
            "(k : ℕ) → k < min rotation_count (reached l p).granted\n",
            "(k : ℕ) → k < 0\n",
        );
    });
    refuses("one-budget", "docs/PINS.md", |copy| {
        let spread = "crates/engine_laws/specs/Spread.antt";
        copy.replace(
            spread,
            "Spread = (job : Job) (a b : ℕ) (workspace : List ℤ) →",
            "Spread = (job : Job) (a b : ℕ) (workspace : List ℤ) → b ≡ 0 →",
        );
    });
    refuses("in-step", "any_workspace_in_step", |copy| {
        copy.replace(demand, "(lent_of c ≡ loaded) × ", "");
    });
}

#[test]
fn statements_that_nobody_proves() {
    for (name, path) in [
        ("silence : Silence", "engine_laws/proofs/Silence.antt"),
        (
            "whole_demand3 : WholeDemand3",
            "accuracy/proofs/WholeDemand3.antt",
        ),
    ] {
        let law = name.split(' ').next().unwrap();
        refuses(law, &format!("the theorem {law} is pinned by no"), |copy| {
            let unit = format!("pub {law} : Unit {{0}}");
            copy.replace(&format!("crates/{path}"), &format!("pub {name}"), &unit);
        });
    }
}

#[test]
fn clauses_and_rows_that_are_gone() {
    let laws = "crates/engine_laws/specs";
    refuses("rows", "every_marked_case_changed", |copy| {
        copy.without(&format!("{laws}/Marked.antt"), "∷ rotates");
    });
    refuses("heard", "refused_load_is_heard", |copy| {
        copy.without(&format!("{laws}/Silence.antt"), "pub load_heard :");
    });
    refuses("tail", "word_511_kept_by_read", |copy| {
        copy.without(&format!("{laws}/Tails.antt"), "pub read :");
    });
    refuses("written", "T Kept.written is nowhere", |copy| {
        let demand = "crates/accuracy/specs/Demand3.antt";
        copy.replace(demand, "  pub written :", "  pub left :");
    });
}

#[test]
fn files_that_are_gone() {
    refuses("edit", "wide::Word64Lane::oriented has 1 of 2", |copy| {
        copy.remove("crates/wide/must-fail/oriented_the_other_way.edit");
    });
    refuses("theorem", "T Tails.Tails is nowhere", |copy| {
        for folder in ["specs", "proofs"] {
            copy.remove(&format!("crates/engine_laws/{folder}/Tails.antt"));
            let list = format!("crates/engine_laws/{folder}/Lib.antt");
            copy.without(&list, "pub mod Tails");
        }
    });
    refuses("crate", "the crate caller", |copy| {
        copy.without("crates.txt", "caller:");
    });
}
