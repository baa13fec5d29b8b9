//! Sessions (SHEETS 7): how much of a roll has been shown, and the number still running, which a session holds.

use crate::refusal::{Refusal, OUTPUT_TOO_SHORT};
use crate::roll::Row;

/// A session over a sheet, without the sheet. One that is handed in may have any numbers (SHEETS 7.5).
#[derive(Clone, Copy, Debug, PartialEq, Eq)]
pub struct Session {
    /// How many rows have been shown.
    pub shown: u64,
    /// The number still running, as it is held.
    pub running: u64,
}

impl Session {
    /// No row shown (SHEETS 7.1).
    pub fn open(roll: &[Row]) -> Self {
        Session::before(roll, roll)
    }

    /// With all rows shown but these last ones.
    fn before(left: &[Row], roll: &[Row]) -> Self {
        Session { shown: (roll.len() - left.len()) as u64, running: left.len() as u64 }
    }

    /// The rows not yet shown. The number held plays no part (SHEETS 7.5).
    fn left<'a>(&self, roll: &'a [Row]) -> &'a [Row] {
        &roll[at_most(self.shown, roll.len())..]
    }

    /// Goes on by `n` rows, or by as many as there still are, and gives them; 12 where the output has less room than
    /// they need (SHEETS 7.2, 3.9).
    pub fn advance<'a>(&mut self, roll: &'a [Row], n: u64, room: usize) -> Result<&'a [Row], Refusal> {
        let left = self.left(roll);
        let (next, behind) = left.split_at(at_most(n, left.len()));
        let needed = next.len() * Row::LENGTH;
        if room < needed {
            return Err(Refusal { number: OUTPUT_TOO_SHORT, place: needed });
        }
        *self = Session::before(behind, roll);
        Ok(next)
    }

    /// No row shown (SHEETS 7.3).
    pub fn reset(&mut self, roll: &[Row]) {
        *self = Session::open(roll);
    }

    /// The number still running (SHEETS 7.4), whichever is held.
    pub fn running(&self, roll: &[Row]) -> usize {
        self.left(roll).len()
    }
}

fn at_most(number: u64, count: usize) -> usize {
    number.min(count as u64) as usize
}

/// A call on a session.
#[derive(Clone, Copy, Debug, PartialEq, Eq)]
pub enum Key {
    Open,
    Advance(u64),
    Reset,
    Running,
}

/// What an accepted call gives: its number (SHEETS 11.1), and the rows that it writes.
#[derive(Clone, Copy, Debug, PartialEq, Eq)]
pub struct Answer<'a> {
    pub second: usize,
    pub rows: &'a [Row],
}

/// So many numbers are a session where it is lent as numbers (SHEETS 11.3).
pub const NUMBERS: usize = 2;

/// A call on a session lent as numbers, over a sheet's roll or its refusal, with so much room for rows (SHEETS 11.3,
/// 11.4). Refused are the sheet, too few numbers, too little room, in this order; the numbers then stay.
pub fn press<'a>(
    key: Key,
    sheet: Result<&'a [Row], Refusal>,
    numbers: &mut [u64],
    room: usize,
) -> Result<Answer<'a>, Refusal> {
    let roll = sheet?;
    let [shown, running, ..] = numbers else {
        return Err(Refusal { number: OUTPUT_TOO_SHORT, place: NUMBERS });
    };
    let mut session = Session { shown: *shown, running: *running };
    let (mut second, mut rows) = (0, &roll[..0]);
    match key {
        Key::Open => session = Session::open(roll),
        Key::Advance(n) => {
            rows = session.advance(roll, n, room)?;
            second = rows.len();
        }
        Key::Reset => session.reset(roll),
        Key::Running => second = session.running(roll),
    }
    (*shown, *running) = (session.shown, session.running);
    Ok(Answer { second, rows })
}
