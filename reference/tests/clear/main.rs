//! Turns that find their column clear, which are skipped, and the job that counts the others.

#[path = "../common/mod.rs"]
mod common;

mod costs;
mod cuts;
mod handed_in;
mod pairs;
mod trace;
mod triangles;
mod zeros;
