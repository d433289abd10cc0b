//! Why a command could not do what it was asked.
use std::fmt::{self, Display, Formatter};

#[derive(Debug)]
pub enum Failure {
    /// The command line is wrong.
    Usage(String),
    /// A file cannot be read or written, or what it holds is wrong.
    Input(String),
}

impl Display for Failure {
    fn fmt(&self, f: &mut Formatter<'_>) -> fmt::Result {
        match self {
            Failure::Usage(message) => write!(f, "{message}\nTry 'record --help'."),
            Failure::Input(message) => f.write_str(message),
        }
    }
}
