//! The room that labels have in a picture: clear of lines, marks and one another. In hundredths of a pixel.

use crate::decimals::Decimals;
use crate::rounded;
use crate::trace::Trace;
use crate::view::{in_units, place, Place, View};
use reference::fraction::Fraction;
use reference::sheet::Wall;

/// The width of an end point's mark.
pub const MARK: i64 = 800;

pub type Point = (i64, i64);

#[derive(Clone, Copy)]
pub struct Area {
    left: i64,
    top: i64,
    right: i64,
    bottom: i64,
}

impl Area {
    pub fn around((x, y): Point, wide: i64, high: i64) -> Area {
        Area { left: x - wide / 2, top: y - high / 2, right: x + wide / 2, bottom: y + high / 2 }
    }

    /// The area and all between it and a point.
    pub fn up_to(&self, (x, y): Point) -> Area {
        Area { left: self.left.min(x), top: self.top.min(y), right: self.right.max(x), bottom: self.bottom.max(y) }
    }

    fn meets(&self, other: &Area) -> bool {
        let across = self.left <= other.right && other.left <= self.right;
        across && self.top <= other.bottom && other.top <= self.bottom
    }

    /// The line's box meets the area, and not all its corners lie on one side of the line.
    fn is_crossed(&self, &(a, b): &(Point, Point)) -> bool {
        let (left, right) = (a.0.min(b.0), a.0.max(b.0));
        let (top, bottom) = (a.1.min(b.1), a.1.max(b.1));
        let side = |x: i64, y: i64| ((b.0 - a.0) * (y - a.1) - (b.1 - a.1) * (x - a.0)).signum();
        let at = |x: i64| [side(x, self.top), side(x, self.bottom)];
        let sides = [at(self.left), at(self.right)].concat();
        self.meets(&Area { left, top, right, bottom }) && sides != [1; 4] && sides != [-1; 4]
    }
}

/// What labels must keep clear of.
pub struct Room<'a> {
    pub view: &'a View,
    lines: Vec<(Point, Point)>,
    areas: Vec<Area>,
}

impl<'a> Room<'a> {
    pub fn new(walls: &[Wall], traces: &[Trace], view: &'a View) -> Room<'a> {
        let mut room = Room { view, lines: Vec::new(), areas: Vec::new() };
        for wall in walls {
            room.line(place(wall.ax, wall.ay), place(wall.bx, wall.by));
        }
        for trace in traces {
            let (start, end) = (trace.start(), room.end(trace));
            room.line(start, end);
            room.areas.push(Area::around(room.pixels_of(end), MARK, MARK));
            let mark = if trace.is_late() { MARK } else { 0 };
            room.areas.push(Area::around(room.pixels_of(start), mark, mark));
            if view.is_close() {
                let rounded = room.pixels((trace.row.x.into(), trace.row.y.into()));
                room.areas.push(Area::around(rounded, rounded::MARK, rounded::MARK));
            }
        }
        let [left, bottom, right, top] = view.sheet();
        for (a, b) in [((left, bottom), (right, top)), ((right, top), (left, bottom))] {
            room.line(in_units(a.0, a.1), in_units(a.0, b.1));
            room.line(in_units(a.0, a.1), in_units(b.0, a.1));
        }
        room
    }

    /// Where labels take a trace to end: at the row's end point, but where 64ths are told apart at the exact one.
    pub fn end(&self, trace: &Trace) -> Place {
        if self.view.is_close() {
            trace.end()
        } else {
            in_units(trace.row.x, trace.row.y)
        }
    }

    /// Where a point given in 64ths is.
    pub fn pixels(&self, (x, y): (i64, i64)) -> Point {
        self.pixels_of(in_units(x, y))
    }

    /// Where an exact point is.
    pub fn pixels_of(&self, place: Place) -> Point {
        let (across, down) = self.view.pixels_of(place);
        (across.in_hundredths(), down.in_hundredths())
    }

    fn line(&mut self, from: Place, to: Place) {
        let near = self.view.near(from, to);
        self.lines.extend(near.map(|(from, to)| (self.pixels_of(from), self.pixels_of(to))));
    }

    fn is_clear(&self, area: &Area) -> bool {
        let (width, height) = self.view.size();
        let inside = 0 <= area.left && area.right <= width.in_hundredths();
        inside
            && 0 <= area.top
            && area.bottom <= height.in_hundredths()
            && !self.areas.iter().any(|other| area.meets(other))
            && !self.lines.iter().any(|line| area.is_crossed(line))
    }

    /// Takes the area for a label, if it is clear.
    pub fn take(&mut self, area: Area) -> bool {
        let clear = self.is_clear(&area);
        if clear {
            self.areas.push(area);
        }
        clear
    }
}

/// A label around a point, in letters of that height. The base line is a third of it below the middle.
pub fn text((x, y): Point, font: i64, words: &str) -> String {
    let pixels = |value: i64| Fraction::new(value, 100).pixels();
    format!("<text x=\"{}\" y=\"{}\">{words}</text>\n", pixels(x), pixels(y + font / 3))
}
