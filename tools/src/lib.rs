//! Sheets as people write and see them: listings in text, pictures in SVG. Whether a sheet is
//! accepted and where its tips end is taken from what the proved program `roll` prints.

#![forbid(unsafe_code)]

pub mod decimals;
mod ids;
pub mod legend;
pub mod listed;
pub mod listing;
pub mod picture;
pub mod roll;
mod room;
mod rounded;
pub mod sheet;
mod sides;
pub mod trace;
pub mod view;
