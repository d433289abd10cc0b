//! Snapshots added up, and the matrix record written of their sums.

#[path = "../common/mod.rs"]
mod common;

mod handed_in;
mod lists;
mod numbers;
mod quiet;
mod quotients;
mod scenes;
