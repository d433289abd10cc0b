//! A matrix record and a result record in, a verdict out, timed in rounds of their own.

mod agree;
pub mod contenders;
mod measure;
pub mod report;
pub mod rounds;
mod versions;
