//! Entries added to a log, swept out of it and read, timed in rounds of their own.

mod agree;
mod calls;
pub mod contenders;
mod logs;
mod measure;
pub mod report;
pub mod rounds;
mod versions;
