//! Whether a file declares a name. A name in a comment or an import is no declaration.
use crate::scan::antt::{self, Form};
use crate::scan::{end, items_of, outside};

pub fn declares(path: &str, text: &str, name: &str) -> bool {
    match end(path) {
        "antt" => antt::declarations(text)
            .iter()
            .any(|found| is_called(found, name)),
        "rt" | "edit" | "rs" => items_of(path, text).iter().any(|item| item.is_called(name)),
        "c" | "cpp" | "h" => {
            let mut names = outside::c(text).into_iter().chain(outside::header(text));
            names.any(|other| other == name)
        }
        // a script has few declarations: a variable or command of it may be meant as well
        "sh" => stands(name, text),
        _ if path.ends_with("Makefile") => stands(name, text),
        _ => text.lines().any(|line| begins_with(line, name)),
    }
}

/// Whether a name means this declaration. That of a field names its record too.
fn is_called(found: &antt::Declaration, name: &str) -> bool {
    let mut names = vec![found.name.clone()];
    for outer in found.within.iter().rev() {
        names.insert(0, format!("{outer}.{}", names[0]));
    }
    if found.form == Form::Field {
        names.pop();
    }
    names.iter().any(|other| other == name)
}

/// Whether a name stands in a text as a whole one. A name may have letters, digits, _ and -.
fn stands(name: &str, text: &str) -> bool {
    let part = |c: char| c.is_alphanumeric() || c == '_' || c == '-';
    text.match_indices(name).any(|(at, _)| {
        let before = text[..at].chars().next_back();
        let after = text[at + name.len()..].chars().next();
        !before.is_some_and(part) && !after.is_some_and(part)
    })
}

/// Whether a name is the first word of a line.
fn begins_with(line: &str, name: &str) -> bool {
    let rest = line.trim_start().strip_prefix(name);
    rest.is_some_and(|rest| !rest.starts_with(|c: char| c.is_alphanumeric() || "_-".contains(c)))
}

#[cfg(test)]
mod tests {
    use super::*;

    #[test]
    fn a_field_with_its_record() {
        let text = "use a.{g}\n-- h\npub record Kept : Type 0 where\n  pub words : ℕ\n\nabbrev f : ℕ\nf = 1\n";
        let has = |name| declares("crates/a/specs/S.antt", text, name);
        assert!(has("Kept") && has("Kept.words") && has("f"));
        assert!(!has("words") && !has("g") && !has("h") && !has("Kept.f"));
    }

    #[test]
    fn code_and_wrong_programs() {
        let text = "use words::g;\nimpl Word {\n    pub const ONE: u8 = 1;\n}\n";
        let has = |name| declares("crates/a/src/w.rt", text, name);
        assert!(has("ONE") && has("Word.ONE") && !has("g"));
        assert!(declares(
            "crates/a/must-fail/e.edit",
            "wrong: one\nfn: f\n",
            "one"
        ));
        assert!(!declares(
            "crates/a/must-fail/e.edit",
            "wrong: one\nfn: f\n",
            "f"
        ));
        assert!(
            declares("tools/x.rs", "fn f() {}\n", "f") && !declares("tools/x.rs", "// f\n", "f")
        );
    }

    #[test]
    fn headers_and_scripts() {
        let text = "struct a {\n};\n/* d */\nint call(int x);\n";
        let has = |name| declares("include/a.h", text, name);
        assert!(has("a") && has("call") && !has("d") && !has("x"));
        assert!(declares("Makefile", "test: a\n\techo b\n", "test"));
        assert!(declares("x.sh", "a() {\n    b c\n}\n", "b"));
        assert!(
            declares("x.awk", "function a() {\n", "function") && !declares("x.awk", "a b\n", "b")
        );
    }
}
