//! From which side each tip came to the line that ended it (SHEETS 4.14): a letter beside the last part of its trace, where
//! there is room. In hundredths of a pixel.

use crate::room::{text, Area, Point, Room};
use crate::trace::Trace;
use reference::roll::Side;

pub const COLOUR: &str = "#555";
const FONT: i64 = 1000;
/// From the end point back along the trace, and from there aside to the middle of the letter.
const BACK: i64 = 1400;
const ASIDE: i64 = 750;

/// None at the edge.
fn letter(side: Side) -> Option<&'static str> {
    match side {
        Side::NoSide => None,
        Side::Left => Some("L"),
        Side::Right => Some("R"),
        Side::Along => Some("A"),
    }
}

/// The letters that have a place.
pub fn draw(traces: &[Trace], room: &mut Room) -> String {
    let letters: String = traces.iter().filter_map(|trace| beside_end(trace, room)).collect();
    format!("<g fill=\"{COLOUR}\" font-size=\"{}\" text-anchor=\"middle\">\n{letters}</g>\n", FONT / 100)
}

/// On either hand of a trace that is long enough.
fn beside_end(trace: &Trace, room: &mut Room) -> Option<String> {
    let letter = letter(trace.row.side)?;
    let (start, end) = (room.pixels_of(trace.start()), room.pixels_of(room.end(trace)));
    let way = (end.0 - start.0, end.1 - start.1);
    let length = way.0.abs().max(way.1.abs());
    if length < 2 * BACK {
        return None;
    }
    let place = |hand: i64| -> Point {
        let part = |along: i64, across: i64| (hand * across * ASIDE - along * BACK) / length;
        (end.0 + part(way.0, -way.1), end.1 + part(way.1, way.0))
    };
    let clear = [1, -1].map(place).into_iter().find(|place| room.take(Area::around(*place, FONT, FONT)));
    clear.map(|place| text(place, FONT, letter))
}
