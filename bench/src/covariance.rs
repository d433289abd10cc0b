//! Snapshots in, matrix out: adding up and writing, timed in rounds of their own.

mod agree;
pub mod contenders;
pub mod implementations;
mod measure;
pub mod report;
pub mod rounds;
mod versions;
