//! Tips that come into one cell, most of them at one time, over borders that it has and over
//! borders that it has not (SHEETS 6.2, 6.4).

use crate::cells::{side, Cell};
use crate::rng::Rng;
use crate::sheet::{listing, Command, Records, Track};

/// A sheet, and the cell that its tips come into.
pub struct Entering {
    pub sheet: Vec<u8>,
    pub figure: u64,
    pub cell: Cell,
}

/// Tips that start at 0.
pub fn entering(rng: &mut Rng) -> Entering {
    entering_by(rng, |_, _| 0)
}

/// Tips that start at any time up to the one at which they are on the border.
pub fn entering_late(rng: &mut Rng) -> Entering {
    entering_by(rng, |rng, time| rng.below(time as usize + 1) as u16)
}

/// Each tip's start time is drawn from the time at which it is on the border.
fn entering_by(rng: &mut Rng, start_time: fn(&mut Rng, i32) -> u16) -> Entering {
    let figure = rng.pick(&[2, 4, 8, 16, 32]);
    let cell = Cell { column: rng.below(figure as usize) as u64, row: rng.below(figure as usize) as u64 };
    let time = rng.below(7) as i32;
    let mut records = Records::default();
    let drawn = (0..2 + rng.below(14)).map(|_| tip(rng, figure, cell, time, start_time));
    let sheet = listing(drawn.filter(|command| records.admit(*command).is_ok()));
    Entering { sheet, figure, cell }
}

/// A tip that is on a border of the cell at the time, or at 0 or a little later now and then.
fn tip(rng: &mut Rng, figure: u64, cell: Cell, time: i32, start_time: fn(&mut Rng, i32) -> u16) -> Command {
    let side = side(figure);
    let speed = 1 + rng.below(8) as i8;
    // Inward over the lower border or over the upper one, and anywhere along it.
    let across = if rng.one_in(2) { (0, speed) } else { (side, -speed) };
    let along = (rng.below(side as usize) as u64, rng.below(5) as i8 - 2);
    let ((x, vx), (y, vy)) = if rng.one_in(2) { (across, along) } else { (along, across) };
    let time = rng.pick(&[time, time, time, time, time + 1, 0]);
    let start_time = start_time(rng, time);
    let age = time - i32::from(start_time);
    // A start below 0 becomes a coordinate above 4095, which is refused.
    let back = |to: u64, speed: i8| (to as i32 - age * i32::from(speed)) as u16;
    let (x, y) = (back(cell.column * side + x, vx), back(cell.row * side + y, vy));
    Track { id: rng.below(300) as u16, x, y, vx, vy, start_time }.command()
}
