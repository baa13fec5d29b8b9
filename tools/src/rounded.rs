//! A close view's own marks: the whole 64ths with their numbers, and the end points in the rows, whose coordinates are
//! rounded to them (SHEETS 5.4).

use crate::decimals::Decimals;
use crate::legend;
use crate::room::{text, Area, Room};
use crate::trace::Trace;
use crate::view::{in_units, View};
use reference::fraction::Fraction;
use reference::sheet::MAX_COORDINATE;
use std::collections::BTreeMap;
use std::ops::RangeInclusive;

/// The width of a rounded end point's mark, in hundredths of a pixel as the sizes of the numbers are.
pub const MARK: i64 = 1700;
const FONT: i64 = 1000;
const DIGIT: i64 = 600;
/// From a line to its number.
const GAP: i64 = 300;

/// Where the sheet begins and ends.
const EDGES: [i64; 2] = [0, 64 * MAX_COORDINATE as i64];

/// The whole 64ths of the sheet inside the view, across and up.
fn whole(view: &View) -> [RangeInclusive<i64>; 2] {
    let [left, bottom, right, top] = view.bounds();
    let inside = |low: i64, high: i64| (low + 1).max(EDGES[0])..=(high - 1).min(EDGES[1]);
    [inside(left, right), inside(bottom, top)]
}

/// Thin lines at them; the edge has its own.
pub fn lines(view: &View) -> String {
    let units = |value: i64| Fraction::new(value, 64).units();
    let [left, bottom, right, top] = view.bounds().map(units);
    let [across, up] = whole(view).map(|places| places.filter(|place| !EDGES.contains(place)).map(units));
    let mut text = format!("<g stroke=\"{}\" stroke-width=\"{}\">\n", legend::WHOLE, view.tenths(7));
    for x in across {
        text += &format!("<path d=\"M{x} {bottom}V{top}\"/>\n");
    }
    for y in up {
        text += &format!("<path d=\"M{left} {y}H{right}\"/>\n");
    }
    text + "</g>\n"
}

/// Their numbers along the lower and the left side, where there is room.
pub fn numbers(room: &mut Room) -> String {
    let ([left, bottom, ..], [across, up]) = (room.view.bounds(), whole(room.view));
    let mut numbers = format!("<g fill=\"#777\" text-anchor=\"middle\" font-size=\"{}\">\n", FONT / 100);
    for (point, number) in across.map(|x| ((x, bottom), x)).chain(up.map(|y| ((left, y), y))) {
        let ((x, y), words) = (room.pixels(point), number.to_string());
        let wide = DIGIT * words.len() as i64;
        let place = (x + GAP + wide / 2, y - GAP - FONT / 2);
        if room.take(Area::around(place, wide, FONT)) {
            numbers += &text(place, FONT, &words);
        }
    }
    numbers + "</g>\n"
}

/// A hollow square at each end point of a row; a pointer resting on it shows the exact ends as well.
pub fn marks(traces: &[Trace], view: &View) -> String {
    let mut points: BTreeMap<(u32, u32), Vec<String>> = BTreeMap::new();
    for trace in traces.iter().filter(|trace| view.holds(trace.row.x.into(), trace.row.y.into())) {
        points.entry((trace.row.x, trace.row.y)).or_default().push(words(trace));
    }
    let (half, side) = (view.tenths(MARK / 20), view.tenths(MARK / 10));
    let style = format!("stroke=\"{}\" stroke-width=\"{}\"", legend::ROUNDED, view.tenths(15));
    let mut text = format!("<g fill=\"none\" pointer-events=\"all\" {style}>\n");
    for ((x, y), words) in points {
        let (x, y) = in_units(x, y);
        let square = format!("M{} {}m-{half} -{half}h{side}v{side}h-{side}z", x.units(), y.units());
        text += &format!("<path d=\"{square}\"><title>{}</title></path>\n", words.join("\n"));
    }
    text + "</g>\n"
}

/// The row's end point and the exact one.
fn words(trace: &Trace) -> String {
    let (row, (x, y)) = (trace.row, trace.end());
    format!("track {}: {}, {} for {}, {}", row.id, row.x, row.y, mixed(x), mixed(y))
}

/// A coordinate in 64ths, as a whole number and a fraction in lowest terms.
fn mixed(units: Fraction) -> String {
    let (numerator, denominator) = (Fraction::whole(64) * units).lowest();
    let (whole, over) = (numerator / denominator, numerator % denominator);
    match (whole, over) {
        (_, 0) => whole.to_string(),
        (0, _) => format!("{over}/{denominator}"),
        _ => format!("{whole} {over}/{denominator}"),
    }
}
