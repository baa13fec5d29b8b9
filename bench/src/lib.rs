//! The proved runs' own algorithms in Rust, for the ratio of speeds.

#![forbid(unsafe_code)]

mod causes;
pub mod grid;
mod queue;
pub mod selection;
