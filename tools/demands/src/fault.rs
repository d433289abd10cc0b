//! What is wrong in `docs/demands.txt`, and on which line.

#[derive(Debug, PartialEq)]
pub struct Fault {
    pub line: usize,
    pub what: String,
}
