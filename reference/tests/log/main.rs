//! The log: every reply and all of the lent memory after every call that adds, sweeps or reads.

#[path = "../common/mod.rs"]
mod common;

mod bodies;
mod book;
mod counts;
mod damaged;
mod days;
mod gaps;
mod histories;
mod kinds;
mod large;
mod lent;
mod logs;
mod numbers;
mod places;
mod room;
mod rules;
mod steps;
