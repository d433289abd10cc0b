//! The pages of a test: read, compared, and counted.

use std::collections::BTreeMap;

use reference::page::page;

use super::inputs::r_words;
use super::reading::{read, Page};
use crate::run::PAGE;

/// How many inputs a test tried, and what they came to.
#[derive(Debug, Default)]
pub struct Compared {
    /// Inputs that the program was started with.
    started: u64,
    /// How often each number was answered, with 0 for a page of R.
    numbers: BTreeMap<i32, u64>,
}

impl Compared {
    /// What the reference's page of an input says. Read back, it has the words of the input, and by
    /// Rust's own formatting they make the same page.
    pub fn examine(&mut self, input: &[u8]) -> Page {
        let made = page(input);
        let says = match read(&made) {
            Ok(says) => says,
            Err(complaint) => panic!("{complaint}: input {input:02X?}"),
        };
        if let Page::Words(words) = &says {
            assert!(*words == r_words(input), "input {input:02X?}");
        }
        assert!(made == says.formatted().as_bytes(), "input {input:02X?}");
        *self.numbers.entry(says.number()).or_default() += 1;
        says
    }

    /// What the page of an input says, which the program and the reference write alike.
    pub fn compare(&mut self, input: &[u8]) -> Page {
        let written = PAGE.output_at_once(input);
        assert!(written == page(input), "input {input:02X?}");
        self.started += 1;
        self.examine(input)
    }

    pub fn print(&self, test: &str) {
        let numbers = self.numbers.iter().map(|(number, count)| match number {
            0 => format!(", {count} pages"),
            _ => format!(", {count} refused with {number}"),
        });
        let inputs: u64 = self.numbers.values().sum();
        let numbers: String = numbers.collect();
        let started = self.started;
        println!("\n{test}: {inputs} inputs{numbers}; the program was started with {started}");
    }
}
