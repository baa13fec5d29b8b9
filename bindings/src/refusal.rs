//! What is refused, and why.

use std::error::Error;
use std::fmt::{Display, Formatter, Result};

/// A line of the table of refusals (SHEETS 3.1), with its second number: for `OUTPUT_TOO_SHORT` the length needed, for `GRID_FIGURE` the
/// figure, for `OUTSIDE_GRID` zero, else a place in the sheet's bytes.
#[derive(Clone, Copy, Debug, PartialEq, Eq)]
pub struct Refusal {
    pub number: u64,
    pub place: u64,
}

impl Refusal {
    pub const UNKNOWN_COMMAND: u64 = 1;
    pub const CUT_SHORT: u64 = 2;
    pub const AFTER_END: u64 = 3;
    pub const COORDINATE: u64 = 4;
    pub const SPEED: u64 = 5;
    pub const EQUAL_ENDS: u64 = 6;
    pub const TOO_MANY: u64 = 7;
    pub const ID_USED: u64 = 8;
    pub const START_USED: u64 = 9;
    pub const START_ON_WALL: u64 = 10;
    /// No call gives it: sheets with tips that face each other are accepted.
    pub const UNUSED_11: u64 = 11;
    pub const OUTPUT_TOO_SHORT: u64 = 12;
    pub const GRID_FIGURE: u64 = 13;
    pub const OUTSIDE_GRID: u64 = 14;

    /// The table's line in words.
    pub fn meaning(&self) -> &'static str {
        match self.number {
            Refusal::UNKNOWN_COMMAND => "a byte that is no command",
            Refusal::CUT_SHORT => "operands cut short, or no end command",
            Refusal::AFTER_END => "bytes after the end command",
            Refusal::COORDINATE => "a coordinate or a start time above 4095",
            Refusal::SPEED => "a speed outside -63 to 63, or no speed at all",
            Refusal::EQUAL_ENDS => "a wall whose ends are one point",
            Refusal::TOO_MANY => "the 257th track or wall",
            Refusal::ID_USED => "an id that another track, or another wall, has",
            Refusal::START_USED => "a start point that another track has",
            Refusal::START_ON_WALL => "a start point on a wall",
            Refusal::UNUSED_11 => "unused: no call gives this number",
            Refusal::OUTPUT_TOO_SHORT => "a lent slice that is too short",
            Refusal::GRID_FIGURE => "a grid figure that is none of the six",
            Refusal::OUTSIDE_GRID => "a cell outside the grid",
            _ => "no line of the table",
        }
    }
}

/// As program `roll` prints it (SHEETS 9.2).
impl Display for Refusal {
    fn fmt(&self, f: &mut Formatter<'_>) -> Result {
        write!(f, "refused {} {}", self.number, self.place)
    }
}

impl Error for Refusal {}
