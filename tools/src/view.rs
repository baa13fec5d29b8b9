//! The part of the sheet that a picture shows, and its scale. Positions are in 64ths of a unit.

use crate::decimals::Decimals;
use reference::fraction::Fraction;
use reference::sheet::MAX_COORDINATE;

/// The longer side of the drawing in pixels.
const LONG: i64 = 640;
/// The shorter side is at least this.
const SHORT: i64 = 200;

/// The margin of a point alone.
const ALONE: i64 = 64 * 10;

/// From the middle of a close view to its sides.
const CLOSE: i64 = 4;

/// An exact point, in units.
pub type Place = (Fraction, Fraction);

/// A point given in units.
pub fn place(x: u16, y: u16) -> Place {
    (Fraction::whole(x), Fraction::whole(y))
}

/// A point given in 64ths.
pub fn in_units(x: impl Into<i128>, y: impl Into<i128>) -> Place {
    (Fraction::new(x, 64), Fraction::new(y, 64))
}

/// A point given in units.
pub fn in_64ths(x: u16, y: u16) -> (i64, i64) {
    (64 * i64::from(x), 64 * i64::from(y))
}

#[derive(Clone, Copy, Debug, PartialEq, Eq)]
pub struct View {
    left: i64,
    bottom: i64,
    right: i64,
    top: i64,
}

impl View {
    /// The rectangle between two corners given in units, with a margin.
    pub fn between(ax: u16, ay: u16, bx: u16, by: u16) -> View {
        View::around(&[in_64ths(ax, ay), in_64ths(bx, by)])
    }

    /// The points with a margin; the whole sheet where there are none.
    pub fn around(points: &[(i64, i64)]) -> View {
        let xs = || points.iter().map(|point| point.0);
        let ys = || points.iter().map(|point| point.1);
        let (Some(left), Some(right)) = (xs().min(), xs().max()) else {
            return View::between(0, 0, MAX_COORDINATE, MAX_COORDINATE);
        };
        let (bottom, top) = (ys().min().unwrap_or(0), ys().max().unwrap_or(0));
        let margin = match (right - left).max(top - bottom) {
            0 => ALONE,
            extent => extent.max(64) / 14,
        };
        View { left: left - margin, bottom: bottom - margin, right: right + margin, top: top + margin }.widened()
    }

    /// A few 64ths around a point given in them.
    pub fn close_to(x: i64, y: i64) -> View {
        View { left: x - CLOSE, bottom: y - CLOSE, right: x + CLOSE, top: y + CLOSE }
    }

    /// Whether 64ths are told apart: the other views are longer.
    pub fn is_close(&self) -> bool {
        self.longer() <= 2 * CLOSE
    }

    /// The view with its shorter side, and a side of no length, made long enough.
    fn widened(self) -> View {
        let least = (self.longer().max(64) * SHORT + LONG - 1) / LONG;
        let grow = |low: i64, high: i64| {
            let more = (least - (high - low)).max(0);
            (low - more / 2, high + more - more / 2)
        };
        let (left, right) = grow(self.left, self.right);
        let (bottom, top) = grow(self.bottom, self.top);
        View { left, bottom, right, top }
    }

    fn longer(&self) -> i64 {
        (self.right - self.left).max(self.top - self.bottom)
    }

    /// Width and height in pixels.
    pub fn size(&self) -> (Fraction, Fraction) {
        self.pixels(self.right, self.bottom)
    }

    /// Where a point is in the drawing, in pixels from its upper left corner.
    pub fn pixels(&self, x: i64, y: i64) -> (Fraction, Fraction) {
        self.pixels_of(in_units(x, y))
    }

    /// The same of an exact point.
    pub fn pixels_of(&self, (x, y): Place) -> (Fraction, Fraction) {
        let scale = Fraction::new(64 * LONG, self.longer());
        let (left, top) = in_units(self.left, self.top);
        (scale * (x - left), scale * (top - y))
    }

    /// Tenths of a pixel in units of the sheet, printed.
    pub fn tenths(&self, count: i64) -> String {
        Fraction::new(count * self.longer(), 640 * LONG).units()
    }

    /// The `viewBox` in units of the sheet; SVG counts y downwards.
    pub fn view_box(&self) -> String {
        let units = |value: i64| Fraction::new(value, 64).units();
        let (width, height) = (self.right - self.left, self.top - self.bottom);
        format!("{} {} {} {}", units(self.left), units(-self.top), units(width), units(height))
    }

    /// Left, bottom, right and top of the sheet. Far outside the view they are drawn nearer: a side
    /// of a million dashes is too long for a viewer.
    pub fn sheet(&self) -> [i64; 4] {
        let out = self.longer();
        let (right, top) = in_64ths(MAX_COORDINATE, MAX_COORDINATE);
        let across = |x: i64| x.clamp(self.left - out, self.right + out);
        let up = |y: i64| y.clamp(self.bottom - out, self.top + out);
        [across(0), up(0), across(right), up(top)]
    }

    /// The part of a line to draw. What is far from a close view is many thousand pixels away, where viewers lose lines
    /// and misplace marks.
    pub fn near(&self, a: Place, b: Place) -> Option<(Place, Place)> {
        if !self.is_close() {
            return Some((a, b));
        }
        let [left, bottom, right, top] = self.sheet();
        let (low, high) = (in_units(left, bottom), in_units(right, top));
        let across = part(a.0, b.0, low.0, high.0)?;
        let up = part(a.1, b.1, low.1, high.1)?;
        let (from, to) = (across.0.max(up.0), across.1.min(up.1));
        let along = |a: Fraction, b: Fraction, part: Fraction| (a + part * (b - a)).reduced();
        let at = |part: Fraction| (along(a.0, b.0, part), along(a.1, b.1, part));
        (from <= to).then(|| (at(from), at(to)))
    }

    pub fn is_near(&self, place: Place) -> bool {
        self.near(place, place).is_some()
    }

    /// Left, bottom, right and top of the view.
    pub fn bounds(&self) -> [i64; 4] {
        [self.left, self.bottom, self.right, self.top]
    }

    pub fn holds(&self, x: i64, y: i64) -> bool {
        (self.left..=self.right).contains(&x) && (self.bottom..=self.top).contains(&y)
    }
}

/// The part of the way from a to b that is between low and high, in fractions of it.
fn part(a: Fraction, b: Fraction, low: Fraction, high: Fraction) -> Option<(Fraction, Fraction)> {
    if a == b {
        return (low <= a && a <= high).then_some((Fraction::ZERO, Fraction::ONE));
    }
    let [first, last] = [low, high].map(|bound| (bound - a).over(b - a));
    Some((first.min(last).max(Fraction::ZERO), first.max(last).min(Fraction::ONE)))
}
