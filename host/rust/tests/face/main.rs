//! The crate against the archive, as a host program calls it.
mod accepted;
mod covariance;
mod desk;
mod heard;
mod job;
mod lent;
mod log;
mod refusal;
mod refused;
mod verify;
mod weights;
