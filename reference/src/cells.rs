//! Which cells hold a point of a trace, and from when on (SHEETS 6.1 to 6.4), cell by cell.
//!
//! The times at which a tip is in one column are an interval, and so are those in one row. A cell
//! holds a point of the trace when the two have a time in common up to the tip's exact end. What
//! they have in common is an interval again, and its lower end is the time of entering the cell.

use crate::fraction::Fraction;
use crate::refusal::{Refusal, GRID_FIGURE, OUTSIDE_GRID};
use crate::roll::{roll, Row};
use crate::sheet::{Records, Track};

/// The grid figures (SHEETS 6.1).
pub const FIGURES: [u64; 6] = [1, 2, 4, 8, 16, 32];

/// The side of a cell.
pub fn side(figure: u64) -> u64 {
    4096 / figure
}

#[derive(Clone, Copy, Debug, PartialEq, Eq, PartialOrd, Ord)]
pub struct Cell {
    pub column: u64,
    pub row: u64,
}

/// An interval of times, each end taken in or not.
#[derive(Clone, Copy)]
struct Times {
    from: Fraction,
    takes_in_from: bool,
    to: Fraction,
    takes_in_to: bool,
}

impl Times {
    /// Those of a trace: it has no point before its start time (SHEETS 4.2).
    fn of_trace(track: &Track, end: Fraction) -> Self {
        Times { from: Fraction::whole(track.start_time), takes_in_from: true, to: end, takes_in_to: true }
    }

    fn not_before(self, from: Fraction) -> Self {
        if from > self.from {
            Times { from, takes_in_from: true, ..self }
        } else {
            self
        }
    }

    fn after(self, from: Fraction) -> Self {
        if from >= self.from {
            Times { from, takes_in_from: false, ..self }
        } else {
            self
        }
    }

    fn not_after(self, to: Fraction) -> Self {
        if to < self.to {
            Times { to, takes_in_to: true, ..self }
        } else {
            self
        }
    }

    fn before(self, to: Fraction) -> Self {
        if to <= self.to {
            Times { to, takes_in_to: false, ..self }
        } else {
            self
        }
    }

    fn is_empty(self) -> bool {
        self.from > self.to || self.from == self.to && !(self.takes_in_from && self.takes_in_to)
    }

    /// Those of the times at which a tip is from `low` on and below `high` in one coordinate, if there are any.
    fn within(self, tip: Along, low: u64, high: u64) -> Option<Times> {
        let kept = match tip.speed.signum() {
            1 => self.not_before(tip.reaches(low)).before(tip.reaches(high)),
            -1 => self.after(tip.reaches(high)).not_after(tip.reaches(low)),
            _ if (low..high).contains(&tip.start.into()) => self,
            _ => return None,
        };
        (!kept.is_empty()).then_some(kept)
    }
}

/// A tip in one of its coordinates.
#[derive(Clone, Copy)]
struct Along {
    start: u16,
    speed: i8,
    start_time: u16,
}

impl Along {
    fn x(track: &Track) -> Self {
        Along { start: track.x, speed: track.vx, start_time: track.start_time }
    }

    fn y(track: &Track) -> Self {
        Along { start: track.y, speed: track.vy, start_time: track.start_time }
    }

    /// When a tip that moves in this coordinate is at the line, be it before its start.
    fn reaches(self, line: u64) -> Fraction {
        let way = i128::from(line) - i128::from(self.start);
        Fraction::whole(self.start_time) + Fraction::new(way, self.speed)
    }
}

/// The times up to `end` at which the tip is in the column.
fn times_in_column(track: &Track, end: Fraction, side: u64, column: u64) -> Option<Times> {
    Times::of_trace(track, end).within(Along::x(track), column * side, (column + 1) * side)
}

/// Those of the times at which the tip is in the row as well.
fn also_in_row(times: Times, track: &Track, side: u64, row: u64) -> Option<Times> {
    times.within(Along::y(track), row * side, (row + 1) * side)
}

/// When the trace, which goes to `end`, enters the cell, if it has a point there (SHEETS 6.4). The
/// tip need not be in the cell at that very time, so it does not matter if the interval takes it in.
pub fn entry(track: &Track, end: Fraction, figure: u64, cell: Cell) -> Option<Fraction> {
    let side = side(figure);
    let times = times_in_column(track, end, side, cell.column)?;
    also_in_row(times, track, side, cell.row).map(|times| times.from)
}

/// All cells that hold a point of the trace, which goes to `end` (SHEETS 6.3).
pub fn cells_of(track: &Track, end: Fraction, figure: u64) -> Vec<Cell> {
    let side = side(figure);
    let mut cells = Vec::new();
    for column in 0..figure {
        let Some(times) = times_in_column(track, end, side, column) else { continue };
        let rows = (0..figure).filter(|row| also_in_row(times, track, side, *row).is_some());
        cells.extend(rows.map(|row| Cell { column, row }));
    }
    cells
}

/// The tracks of an accepted sheet, each with its exact end.
fn traces<'a>(records: &'a Records, rows: &'a [Row]) -> impl Iterator<Item = (&'a Track, Fraction)> {
    let end_of = |track: &Track| rows.iter().find(|row| row.id == track.id).map(|row| row.time);
    records.tracks.iter().map(move |track| (track, end_of(track).expect("a row for each track")))
}

/// The cells entered (SHEETS 6.6).
pub fn count(records: &Records, rows: &[Row], figure: u64) -> usize {
    traces(records, rows).map(|(track, end)| cells_of(track, end, figure).len()).sum()
}

/// The cells entered at each of the six figures.
pub fn counts(records: &Records, rows: &[Row]) -> [usize; 6] {
    FIGURES.map(|figure| count(records, rows, figure))
}

/// The ids of the tracks with a point in the cell: by the time of entering it, then by id (SHEETS 6.10).
pub fn ids_in(records: &Records, rows: &[Row], figure: u64, cell: Cell) -> Vec<u16> {
    let entered = |(track, end): (&Track, Fraction)| Some((entry(track, end, figure, cell)?, track.id));
    let mut entries: Vec<(Fraction, u16)> = traces(records, rows).filter_map(entered).collect();
    entries.sort();
    entries.into_iter().map(|(_, id)| id).collect()
}

fn check_figure(figure: u64) -> Result<(), Refusal> {
    if FIGURES.contains(&figure) {
        Ok(())
    } else {
        Err(Refusal { number: GRID_FIGURE, place: figure as usize })
    }
}

/// The cells entered, or the refusal of the figure.
pub fn cells_entered(records: &Records, figure: u64) -> Result<usize, Refusal> {
    check_figure(figure)?;
    Ok(count(records, &roll(records), figure))
}

/// The cell listing, or the refusal of the figure or the cell.
pub fn listing(records: &Records, figure: u64, cell: Cell) -> Result<Vec<u16>, Refusal> {
    check_figure(figure)?;
    if cell.column.max(cell.row) >= figure {
        return Err(Refusal { number: OUTSIDE_GRID, place: 0 });
    }
    Ok(ids_in(records, &roll(records), figure, cell))
}
