//! The numbers of the refusal table (SHEETS 3.1). 11 is unused: no sheet is refused by it since tips may face.

use std::fmt;

pub const UNKNOWN_COMMAND: u8 = 1;
pub const CUT_SHORT: u8 = 2;
pub const AFTER_END: u8 = 3;
pub const COORDINATE: u8 = 4;
pub const SPEED: u8 = 5;
pub const EQUAL_ENDS: u8 = 6;
pub const TOO_MANY: u8 = 7;
pub const ID_USED: u8 = 8;
pub const START_USED: u8 = 9;
pub const START_ON_WALL: u8 = 10;
pub const OUTPUT_TOO_SHORT: u8 = 12;
pub const GRID_FIGURE: u8 = 13;
pub const OUTSIDE_GRID: u8 = 14;

/// A line of the table. Its second number is a place; for 12 the length needed, for 13 the figure
/// and for 14 zero.
#[derive(Clone, Copy, Debug, PartialEq, Eq)]
pub struct Refusal {
    pub number: u8,
    pub place: usize,
}

impl fmt::Display for Refusal {
    fn fmt(&self, f: &mut fmt::Formatter<'_>) -> fmt::Result {
        write!(f, "refused {} {}", self.number, self.place)
    }
}
