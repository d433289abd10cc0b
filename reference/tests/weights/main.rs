//! Weights from result records and targets, compared bit for bit.

#[path = "../common/mod.rs"]
mod common;

mod damaged;
mod nearness;
mod numbers;
mod places;
mod rules;
mod sizes;
mod words;
mod worked;
mod zeros;
