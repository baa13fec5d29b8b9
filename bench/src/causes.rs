//! What both runs share, as their proved forms do: times, causes, contacts and rows, in machine words. Contacts are found by ages, the
//! times since a tip's own start; causes have times of the sheet.

use reference::sheet::{Track, Wall};
use std::cmp::Ordering;

/// num / den, den above 0.
#[derive(Clone, Copy)]
pub struct Time {
    pub num: i64,
    pub den: i64,
}

const ZERO: Time = Time { num: 0, den: 1 };
const ONE: Time = Time { num: 1, den: 1 };

impl Time {
    /// n / d, where that is a number and not negative.
    fn quotient(n: i64, d: i64) -> Option<Time> {
        match d.cmp(&0) {
            Ordering::Greater if n >= 0 => Some(Time { num: n, den: d }),
            Ordering::Less if n <= 0 => Some(Time { num: -n, den: -d }),
            _ => None,
        }
    }

    /// The time of the sheet, where this is an age of the tip.
    fn of(self, a: &Track) -> Time {
        Time { num: self.num + i64::from(a.start_time) * self.den, den: self.den }
    }

    /// The numbers of a cause are below 2^38 and 2^25, so that the products are below 2^63.
    pub fn order(self, other: Time) -> Ordering {
        (self.num * other.den).cmp(&(other.num * self.den))
    }

    /// In lowest terms, as a row has it.
    fn lowest(self) -> Time {
        let g = gcd(self.num, self.den);
        Time { num: self.num / g, den: self.den / g }
    }

    fn sooner(a: Option<Time>, b: Option<Time>) -> Option<Time> {
        match (a, b) {
            (Some(a), Some(b)) => Some(if a.order(b).is_le() { a } else { b }),
            (a, b) => a.or(b),
        }
    }
}

/// Classes: 0 a track, 1 a wall, 2 the edge. Sides: as in a row's last byte.
#[derive(Clone, Copy)]
pub struct Cause {
    pub at: Time,
    pub class: u8,
    pub id: u16,
    pub who: usize,
    pub reached: Time,
    pub side: u8,
}

const NO_SIDE: u8 = 0;
const LEFT: u8 = 1;
const RIGHT: u8 = 2;
const ALONG: u8 = 3;

/// What a table holds before it is filled.
pub const NO_CAUSE: Cause = Cause { at: ZERO, class: 2, id: 0, who: 0, reached: ZERO, side: NO_SIDE };

impl Cause {
    fn order(&self, other: &Cause) -> Ordering {
        self.at.order(other.at).then(self.class.cmp(&other.class)).then(self.id.cmp(&other.id))
    }

    pub fn least(self, other: Cause) -> Cause {
        if self.order(&other).is_le() {
            self
        } else {
            other
        }
    }

    /// As it is kept from the tip's end on: other tips may come to the end point, and their times are worked out from this one.
    pub fn lowest(self) -> Cause {
        Cause { at: self.at.lowest(), ..self }
    }
}

fn gap(a: u16, b: u16) -> i64 {
    i64::from(b) - i64::from(a)
}

fn cross(ux: i64, uy: i64, vx: i64, vy: i64) -> i64 {
    ux * vy - uy * vx
}

/// The side from which a tip comes to a line, by the cross product of its own direction with the line's (SHEETS 4.14, where the two
/// stand the other way round).
fn side(turn: i64) -> u8 {
    match turn.cmp(&0) {
        Ordering::Greater => LEFT,
        Ordering::Less => RIGHT,
        Ordering::Equal => ALONG,
    }
}

/// The age of a at the point (dx, dy) from its start.
fn reach(a: &Track, dx: i64, dy: i64) -> Option<Time> {
    let (vx, vy) = (i64::from(a.vx), i64::from(a.vy));
    if cross(dx, dy, vx, vy) != 0 {
        None
    } else if vx != 0 {
        Time::quotient(dx, vx)
    } else {
        Time::quotient(dy, vy)
    }
}

/// Of tips on one line: how far the start of b is from that of a, and the two speeds, along an axis on which both move.
fn along(a: &Track, b: &Track) -> (i64, i64, i64) {
    if a.vx != 0 {
        (gap(a.x, b.x), a.vx.into(), b.vx.into())
    } else {
        (gap(a.y, b.y), a.vy.into(), b.vy.into())
    }
}

/// The ages of two tips that face each other: where they meet, or where one of them opens on the way that the other has come. `to_b` and
/// `to_a` are their ages at each other's starts.
fn meeting(a: &Track, b: &Track, to_b: Time, to_a: Time) -> (Time, Time) {
    let (d, v, w) = along(a, b);
    let k = i64::from(a.start_time) - i64::from(b.start_time);
    match (Time::quotient(d + k * w, v - w), Time::quotient(d + k * v, v - w)) {
        (Some(own), Some(other)) => (own, other),
        (None, _) => (ZERO, to_a),
        (_, None) => (to_b, ZERO),
    }
}

/// The ages of a and b at a point of both lines, and the side from which a comes. On one line this is where they meet, or the start of the
/// one in front.
fn contact(a: &Track, b: &Track) -> Option<(Time, Time, u8)> {
    let (vx, vy, wx, wy) = (i64::from(a.vx), i64::from(a.vy), i64::from(b.vx), i64::from(b.vy));
    let (dx, dy) = (gap(a.x, b.x), gap(a.y, b.y));
    let turn = cross(vx, vy, wx, wy);
    if turn == 0 {
        let (own, other) = match (reach(a, dx, dy), reach(b, -dx, -dy)) {
            (Some(to_b), Some(to_a)) => meeting(a, b, to_b, to_a),
            (Some(to_b), None) => (to_b, ZERO),
            (None, to_a) => (ZERO, to_a?),
        };
        return Some((own, other, ALONG));
    }
    let t = Time::quotient(cross(dx, dy, wx, wy), turn)?;
    let s = Time::quotient(cross(dx, dy, vx, vy), turn)?;
    Some((t, s, side(turn)))
}

/// The age of a at the wall, and the side from which it comes.
fn wall_contact(a: &Track, w: &Wall) -> Option<(Time, u8)> {
    let (vx, vy) = (i64::from(a.vx), i64::from(a.vy));
    let (wx, wy) = (gap(w.ax, w.bx), gap(w.ay, w.by));
    let (dx, dy) = (gap(a.x, w.ax), gap(a.y, w.ay));
    let turn = cross(vx, vy, wx, wy);
    if turn == 0 {
        let nearer = Time::sooner(reach(a, dx, dy), reach(a, gap(a.x, w.bx), gap(a.y, w.by)));
        return nearer.map(|t| (t, ALONG));
    }
    let t = Time::quotient(cross(dx, dy, wx, wy), turn)?;
    let s = Time::quotient(cross(dx, dy, vx, vy), turn)?;
    s.order(ONE).is_le().then_some((t, side(turn)))
}

fn edge_time(a: &Track) -> Time {
    let exit = |x: u16, v: i8| match v.cmp(&0) {
        Ordering::Less => Time::quotient(i64::from(x), -i64::from(v)),
        Ordering::Equal => None,
        Ordering::Greater => Time::quotient(gap(x, 4095), i64::from(v)),
    };
    Time::sooner(exit(a.x, a.vx), exit(a.y, a.vy)).unwrap_or(ZERO)
}

/// The edge, which ends every tip at last.
pub fn edge(a: &Track) -> Cause {
    Cause { at: edge_time(a).of(a), class: 2, id: 0, who: 0, reached: ZERO, side: NO_SIDE }
}

/// Tip a at wall number `who`.
pub fn at_wall(a: &Track, who: usize, w: &Wall) -> Option<Cause> {
    wall_contact(a, w).map(|(age, side)| Cause { at: age.of(a), class: 1, id: w.id, who, reached: ZERO, side })
}

/// The time at which a comes to where b, on its line, has ended, if that is ahead of it: of two tips that run the same way none does.
fn arrival(a: &Track, b: &Track, end: Time) -> Option<Time> {
    let (d, v, w) = along(a, b);
    let age = end.num - i64::from(b.start_time) * end.den;
    Time::quotient(d * end.den + w * age, v * end.den).map(|age| age.of(a))
}

/// Tip a at a point of the line of tip b, number `who`, which b reaches no later than a, nor later than at its own `end`, if it has ended.
/// Where a faces b and b ended too soon, that is the end point of b.
pub fn at_track(a: &Track, who: usize, b: &Track, end: Option<Time>) -> Option<Cause> {
    let (own, other, side) = contact(a, b)?;
    let (at, reached) = (own.of(a), other.of(b));
    if reached.order(at).is_gt() {
        return None;
    }
    let (at, reached) = match end {
        Some(end) if reached.order(end).is_gt() && side == ALONG => (arrival(a, b, end)?, end),
        Some(end) if reached.order(end).is_gt() => return None,
        _ => (at, reached),
    };
    Some(Cause { at, class: 0, id: b.id, who, reached, side })
}

fn gcd(a: i64, b: i64) -> i64 {
    if b == 0 {
        a
    } else {
        gcd(b, a % b)
    }
}

/// n / den to the nearest, at an exact half to the even one.
fn nearest(n: i64, den: i64) -> i64 {
    let (below, twice) = (n / den, 2 * (n % den));
    match twice.cmp(&den) {
        Ordering::Less => below,
        Ordering::Equal => below + below % 2,
        Ordering::Greater => below + 1,
    }
}

/// The row of a tip whose ending has its time in lowest terms.
pub fn write_row(out: &mut [u8], a: &Track, c: &Cause) {
    let Time { num, den } = c.at;
    let age = num - i64::from(a.start_time) * den;
    let place = |x: u16, v: i8| {
        let p = i64::from(x) * den + i64::from(v) * age;
        nearest(64 * p, den) as u32
    };
    let kind = match c.class {
        0 if c.at.order(c.reached).is_le() => 2,
        0 => 1,
        class => class + 2,
    };
    out[..2].copy_from_slice(&a.id.to_le_bytes());
    out[2] = kind;
    out[3..5].copy_from_slice(&c.id.to_le_bytes());
    out[5..13].copy_from_slice(&num.to_le_bytes());
    out[13..21].copy_from_slice(&den.to_le_bytes());
    out[21..25].copy_from_slice(&place(a.x, a.vx).to_le_bytes());
    out[25..29].copy_from_slice(&place(a.y, a.vy).to_le_bytes());
    out[29] = c.side;
}
