//! The program `record` as people run it.
mod check;
mod heard;
mod log;
mod output;
mod pack;
mod samples;
mod show;
mod tool;
mod usage;
mod verify;
mod weights;
