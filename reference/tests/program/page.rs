//! The program `page`: R of a result record in 16 lines, or the number of a refusal in one.

mod arbitrary;
mod compared;
mod inputs;
mod lengths;
mod pieces;
mod places;
mod reading;
mod rules;
mod samples;
mod worked;
