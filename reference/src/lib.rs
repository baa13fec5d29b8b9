//! Fissure sheets worked out a second time, apart from the proved library, so that the two can be
//! compared. The standard, docs/SHEETS.md, is the only thing they have in common; comments here
//! cite its paragraphs, as `SHEETS 4.5`.

#![forbid(unsafe_code)]

pub mod cells;
pub mod chosen;
pub mod fraction;
pub mod frames;
pub mod handed_in;
pub mod line;
pub mod made_up;
pub mod names;
pub mod plane;
pub mod refusal;
pub mod rng;
pub mod roll;
pub mod session;
pub mod shapefile;
pub mod sheet;
pub mod turn;
