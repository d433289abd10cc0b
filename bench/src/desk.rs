//! Sectors served by a desk, timed in rounds of their own.

mod agree;
mod calls;
pub mod contenders;
mod measure;
pub mod report;
pub mod rounds;
mod versions;
