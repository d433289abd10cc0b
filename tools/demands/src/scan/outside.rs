//! The names that a Rust or C file outside of the crates declares: functions, constants and types.
use super::rattle::identifier;

/// What a Rust item begins with.
const ITEMS: [&str; 8] = [
    "fn",
    "const",
    "static",
    "struct",
    "enum",
    "trait",
    "type",
    "macro_rules!",
];

pub fn rust(text: &str) -> Vec<String> {
    text.lines().filter_map(rust_name).collect()
}

fn rust_name(line: &str) -> Option<String> {
    let marks = ["unsafe", "async"];
    let words = line.split_whitespace();
    let mut words = words.skip_while(|word| word.starts_with("pub") || marks.contains(word));
    let mut word = words.next()?;
    let mut name = words.next()?;
    if (word, name) == ("const", "fn") {
        (word, name) = (name, words.next()?);
    }
    let name = identifier(name);
    (ITEMS.contains(&word) && !name.is_empty()).then_some(name)
}

/// Macros, and what begins at the start of a line: functions with a body, variables with a value.
pub fn c(text: &str) -> Vec<String> {
    let lines: Vec<&str> = text.lines().collect();
    let mut found = Vec::new();
    for (at, line) in lines.iter().enumerate() {
        if let Some(rest) = line.strip_prefix("#define ") {
            found.push(identifier(rest.trim_start()));
        } else if line.starts_with(|c: char| c.is_ascii_alphabetic()) && is_defined(&lines[at..]) {
            found.extend(c_name(line));
        }
    }
    found
}

/// What a header declares for others to define: structs, enums and functions.
pub fn header(text: &str) -> Vec<String> {
    let mut found = Vec::new();
    let mut comment = false;
    for line in text.lines() {
        let words: Vec<&str> = line.split_whitespace().collect();
        let begins = line.starts_with(|c: char| c.is_ascii_alphabetic());
        match words[..] {
            ["struct" | "enum", name, "{"] if !comment => found.push(name.to_string()),
            _ if begins && !comment => found.extend(c_name(line)),
            _ => {}
        }
        // the last mark of a comment on the line says whether it goes on
        comment = match (line.rfind("/*"), line.rfind("*/")) {
            (None, None) => comment,
            (start, end) => start > end,
        };
    }
    found
}

/// Whether a body or a value comes before the semicolon.
fn is_defined(lines: &[&str]) -> bool {
    let mut letters = lines.iter().flat_map(|line| line.chars());
    letters.find(|c| ";{=".contains(*c)) != Some(';')
}

/// The name before the arguments, the length or the value.
fn c_name(line: &str) -> Option<String> {
    let before = &line[..line.find(['(', '[', '='])?];
    let mut names = before
        .split(|c: char| !c.is_alphanumeric() && c != '_')
        .filter(|name| !name.is_empty());
    names.next_back().map(String::from)
}

#[cfg(test)]
mod tests {
    use super::*;

    #[test]
    fn names_of_rust() {
        let text = "
pub const LIMIT: u8 = 1;

#[test]
fn some_test() {
    let x = 1;
}

pub(crate) struct Some;

impl Some {
    pub const fn constant(&self) {}
}
";
        assert_eq!(rust(text), ["LIMIT", "some_test", "Some", "constant"]);
    }

    #[test]
    fn names_of_c() {
        let text = "
#include <x.h>
#define MACRO 1
int ahead(int a,
          int b);

static void with_body(const struct x *y)
{
    call(1);
}
static int with_more(int a,
                     int b) {
}
static int array[3] = {1};
extern int more[3];
";
        assert_eq!(c(text), ["MACRO", "with_body", "with_more", "array"]);
        let text = "/* a\nb(c) */\nstruct reply {\n    int x; /* y */\n};\n\nint call(int a);\n";
        assert_eq!(header(text), ["reply", "call"]);
    }
}
