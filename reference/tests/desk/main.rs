//! The desk for eight sectors: every reply, the desk in it, and all areas, after every call.

#[path = "../common/mod.rs"]
mod common;

mod allowed;
mod alone;
mod book;
mod early;
mod finish;
mod fitter_pairs;
mod fitters;
mod histories;
mod hub;
mod isolation;
mod made_up;
mod never_loaded;
mod numbers;
mod others;
mod pairs;
mod roles;
mod rounds;
mod rules;
mod sector;
mod sectors;
mod settings;
mod shares;
mod steps;
mod viewer_pairs;
mod waiting;
