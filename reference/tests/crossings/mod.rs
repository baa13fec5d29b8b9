//! A second way to the cells of a trace: the points at and between its crossings of borders.

use reference::cells::{side, Cell};
use reference::fraction::Fraction;
use reference::sheet::Track;
use std::collections::BTreeMap;

pub fn cell_at(track: &Track, time: Fraction, figure: u64) -> Cell {
    let number = |place: Fraction| place.over(Fraction::whole(side(figure))).floor() as u64;
    let (x, y) = track.at(time);
    Cell { column: number(x), row: number(y) }
}

/// The start, the end and the crossings. Between two neighbours the tip stays in one cell.
fn crossing_times(track: &Track, end: Fraction, figure: u64) -> Vec<Fraction> {
    let opening = Fraction::whole(track.start_time);
    let mut times = vec![opening, end];
    for line in (0..=4096).step_by(side(figure) as usize) {
        for (start, speed) in [(track.x, track.vx), (track.y, track.vy)] {
            if speed != 0 {
                times.push(opening + Fraction::new(line - i128::from(start), speed));
            }
        }
    }
    times.retain(|time| opening <= *time && *time <= end);
    times.sort();
    times
}

/// The cells of the trace, each with the crossing at which or right after which the tip is there first.
pub fn entries(track: &Track, end: Fraction, figure: u64) -> BTreeMap<Cell, Fraction> {
    let times = crossing_times(track, end, figure);
    let mut entries = BTreeMap::new();
    for (index, time) in times.iter().enumerate() {
        let next = times.get(index + 1).unwrap_or(time);
        let halfway = (*time + *next) * Fraction::new(1, 2);
        for moment in [*time, halfway] {
            entries.entry(cell_at(track, moment, figure)).or_insert(*time);
        }
    }
    entries
}
