//! The rows of a roll.

use std::fmt::{Display, Formatter, Result};

/// Bytes of a row.
pub const ROW: usize = 30;

/// From which side a tip came to the line that ended it, seen in the direction of the track or wall that is named; a wall's is from a to b
/// (SHEETS 4.14).
#[derive(Clone, Copy, Debug, PartialEq, Eq)]
pub enum Side {
    /// At the edge.
    NoSide = 0,
    Left = 1,
    Right = 2,
    /// Along the line.
    Along = 3,
}

impl Side {
    pub const ALL: [Side; 4] = [Side::NoSide, Side::Left, Side::Right, Side::Along];

    pub fn number(self) -> u8 {
        self as u8
    }

    /// The side with the number, if there is one.
    pub fn of(number: u8) -> Option<Side> {
        Side::ALL.into_iter().find(|side| side.number() == number)
    }
}

/// A row in a roll's bytes (SHEETS 5.6). Each number has its low byte first.
#[derive(Clone, Copy, Debug, PartialEq, Eq)]
pub struct Row<'a>(pub &'a [u8; ROW]);

impl<'a> Row<'a> {
    // Where the fields begin.
    pub const ID: usize = 0;
    pub const KIND: usize = 2;
    pub const PARTNER: usize = 3;
    pub const NUM: usize = 5;
    pub const DEN: usize = 13;
    pub const X: usize = 21;
    pub const Y: usize = 25;
    pub const SIDE: usize = 29;

    /// The rows that lie in these bytes one behind the other, from the first byte on.
    pub fn all(bytes: &'a [u8]) -> impl Iterator<Item = Row<'a>> {
        bytes.chunks_exact(ROW).filter_map(|row| row.first_chunk()).map(Row)
    }

    fn field<const WIDTH: usize>(self, at: usize) -> [u8; WIDTH] {
        std::array::from_fn(|i| self.0[at + i])
    }

    pub fn id(self) -> u16 {
        u16::from_le_bytes(self.field(Row::ID))
    }

    /// 1 on a trace, 2 meeting a tip, 3 at a wall, 4 at the edge.
    pub fn kind(self) -> u8 {
        self.0[Row::KIND]
    }

    /// The id of the track or wall that is named; 0 at the edge.
    pub fn partner(self) -> u16 {
        u16::from_le_bytes(self.field(Row::PARTNER))
    }

    /// Numerator and denominator, in lowest terms. A time of the whole sheet, also where the track starts later than at 0.
    pub fn time(self) -> (u64, u64) {
        (u64::from_le_bytes(self.field(Row::NUM)), u64::from_le_bytes(self.field(Row::DEN)))
    }

    /// The end point in 64ths of a unit: the nearest, at an exact half the even one (SHEETS 5.4). At most 262,080.
    pub fn x(self) -> u32 {
        u32::from_le_bytes(self.field(Row::X))
    }

    pub fn y(self) -> u32 {
        u32::from_le_bytes(self.field(Row::Y))
    }

    /// Every row that the library writes has one. Other bytes may not: above 3 no number is a side's (SHEETS 5.8).
    pub fn side(self) -> Option<Side> {
        Side::of(self.0[Row::SIDE])
    }
}

/// As program `roll` prints it (SHEETS 9.1).
impl Display for Row<'_> {
    fn fmt(&self, f: &mut Formatter<'_>) -> Result {
        let ((num, den), side) = (self.time(), self.0[Row::SIDE]);
        write!(f, "{} {} {} {num}/{den} {} {} {side}", self.id(), self.kind(), self.partner(), self.x(), self.y())
    }
}
