//! Yes or no to result records, whoever wrote them.

#[path = "../common/mod.rs"]
mod common;

mod board;
mod boards;
mod bounds;
mod columns;
mod damaged;
mod large;
mod lent;
mod moved;
mod near;
mod numbers;
mod order;
mod pair;
mod places;
mod rules;
mod words;
mod worked;
