//! The rule of ending itself (SHEETS 4.3 to 4.10, 4.14), by intervals of times: everything that ends a tip at its end,
//! with the other tips' ends given. Nothing here goes by the order of events.

use reference::fraction::Fraction;
use reference::plane::Vector;
use reference::roll::{Ending, Row, Side};
use reference::sheet::{Records, Track};
use std::cmp::Ordering;
use std::collections::BTreeMap;

/// When each tip ends, by its id.
pub type Ends = BTreeMap<u16, Fraction>;

pub fn ends(rows: &[Row]) -> Ends {
    rows.iter().map(|row| (row.id, row.time)).collect()
}

/// All times t with from ≤ t ≤ to; `to` may be missing.
#[derive(Clone, Copy)]
struct Span {
    from: Fraction,
    to: Option<Fraction>,
}

impl Span {
    /// Keeps the times at which constant + slope × t ≥ 0.
    fn keep(self, constant: Fraction, slope: Fraction) -> Option<Span> {
        let mut kept = self;
        if slope == Fraction::ZERO {
            return (constant >= Fraction::ZERO).then_some(kept);
        }
        let zero = (-constant).over(slope);
        if slope > Fraction::ZERO {
            kept.from = kept.from.max(zero);
        } else {
            kept.to = Some(kept.to.map_or(zero, |to| to.min(zero)));
        }
        kept.to.is_none_or(|to| kept.from <= to).then_some(kept)
    }
}

fn whole(number: i64) -> Fraction {
    Fraction::whole(number)
}

/// A point that moves from one time on to another. `origin` is where it would be at time 0. A wall is one too, going from
/// end to end by time 1 of a clock of its own.
#[derive(Clone, Copy)]
struct Mover {
    origin: Vector,
    speed: Vector,
    from: Fraction,
    to: Option<Fraction>,
}

impl Mover {
    /// At t it is at its start + (t − start time) × speed (SHEETS 4.1), from its start time on.
    fn tip(track: &Track, end: Option<Fraction>) -> Mover {
        let from = i64::from(track.start_time);
        Mover { origin: track.start() - track.speed() * from, speed: track.speed(), from: whole(from), to: end }
    }

    fn wall(a: Vector, b: Vector) -> Mover {
        Mover { origin: a, speed: b - a, from: Fraction::ZERO, to: Some(Fraction::ONE) }
    }

    fn at(&self, time: Fraction) -> (Fraction, Fraction) {
        let along = |origin: i64, speed: i64| whole(origin) + whole(speed) * time;
        (along(self.origin.x, self.speed.x), along(self.origin.y, self.speed.y))
    }

    fn times(&self) -> Span {
        Span { from: self.from, to: self.to }
    }
}

/// The earliest t from the tip's start time on at which it is where the mover is at some s of the
/// mover's times, with s ≤ t if the mover has to be there first.
fn earliest(tip: Mover, mover: Mover, first: bool) -> Option<Fraction> {
    let (p, v) = (tip.origin, tip.speed);
    let Mover { origin: q, speed: w, from, to } = mover;
    // s as constant + slope × t, from a coordinate in which the mover moves.
    let (constant, slope) = if w.x != 0 {
        (Fraction::new(p.x - q.x, w.x), Fraction::new(v.x, w.x))
    } else {
        (Fraction::new(p.y - q.y, w.y), Fraction::new(v.y, w.y))
    };
    let mut span = tip.times().keep(constant - from, slope)?;
    if let Some(to) = to {
        span = span.keep(to - constant, -slope)?;
    }
    if first {
        span = span.keep(-constant, Fraction::ONE - slope)?;
    }
    // Both coordinates agree: two inequalities each.
    for (p, v, q, w) in [(p.x, v.x, q.x, w.x), (p.y, v.y, q.y, w.y)] {
        let constant = whole(p - q) - whole(w) * constant;
        let slope = whole(v) - whole(w) * slope;
        span = span.keep(constant, slope)?.keep(-constant, -slope)?;
    }
    Some(span.from)
}

/// When the mover is at the tip's place of that time.
fn mover_there(tip: Mover, time: Fraction, mover: Mover) -> Option<Fraction> {
    let (x, y) = tip.at(time);
    let Mover { origin: q, speed: w, from, to } = mover;
    let s = if w.x != 0 { (x - whole(q.x)).over(whole(w.x)) } else { (y - whole(q.y)).over(whole(w.y)) };
    let there = mover.at(s) == (x, y) && s >= from && to.is_none_or(|to| s <= to);
    there.then_some(s)
}

fn last_inside(tip: Mover) -> Fraction {
    let mut span = tip.times();
    for (origin, speed) in [(tip.origin.x, tip.speed.x), (tip.origin.y, tip.speed.y)] {
        let inside = span.keep(whole(origin), whole(speed));
        let inside = inside.and_then(|span| span.keep(whole(4095 - origin), whole(-speed)));
        span = inside.expect("a start inside the sheet");
    }
    span.to.expect("a tip that moves")
}

fn other_tracks(records: &Records, tip: &Track, ends: &Ends) -> Vec<(u16, Mover)> {
    let others = records.tracks.iter().filter(|other| other.id != tip.id);
    let mover = |other: &Track| Mover::tip(other, Some(ends[&other.id]));
    let mut movers: Vec<_> = others.map(|other| (other.id, mover(other))).collect();
    movers.sort_by_key(|(id, _)| *id);
    movers
}

fn walls(records: &Records) -> Vec<(u16, Mover)> {
    let mut movers: Vec<_> = records.walls.iter().map(|wall| (wall.id, Mover::wall(wall.a(), wall.b()))).collect();
    movers.sort_by_key(|(id, _)| *id);
    movers
}

/// On which side of the mover's line the tip's own line comes from (SHEETS 4.14): by the point of a unit of time before,
/// whether or not the tip had opened by then. What is on the left of a direction is counterclockwise from it.
fn side(tip: Mover, time: Fraction, mover: Mover) -> Side {
    let (x, y) = tip.at(time - Fraction::ONE);
    let Mover { origin: q, speed: w, .. } = mover;
    let counterclockwise = whole(w.x) * (y - whole(q.y)) - whole(w.y) * (x - whole(q.x));
    match counterclockwise.cmp(&Fraction::ZERO) {
        Ordering::Greater => Side::Left,
        Ordering::Less => Side::Right,
        Ordering::Equal => Side::Along,
    }
}

/// The end of a tip by the rule: its time and point, and all that ends the tip then, in the order in which causes are named.
pub struct End {
    pub time: Fraction,
    pub point: (Fraction, Fraction),
    pub causes: Vec<(Ending, Side)>,
}

/// What the rule gives the tip while the others end as in `ends`.
pub fn end(records: &Records, tip: &Track, ends: &Ends) -> End {
    let (tracks, walls) = (other_tracks(records, tip, ends), walls(records));
    let tip = Mover::tip(tip, None);
    let on_track = tracks.iter().filter_map(|(_, mover)| earliest(tip, *mover, true));
    let on_wall = walls.iter().filter_map(|(_, mover)| earliest(tip, *mover, false));
    let last = last_inside(tip);
    let time = on_track.chain(on_wall).fold(last, Fraction::min);

    let blocks = |(id, mover): &(u16, Mover)| {
        let s = mover_there(tip, time, *mover).filter(|s| *s <= time)?;
        let ending = if s < time { Ending::Track(*id) } else { Ending::Meeting(*id) };
        Some((ending, side(tip, time, *mover)))
    };
    let stops = |(id, mover): &(u16, Mover)| {
        mover_there(tip, time, *mover).map(|_| (Ending::Wall(*id), side(tip, time, *mover)))
    };
    let edge = (time == last).then_some((Ending::Edge, Side::NoSide));
    let causes = tracks.iter().filter_map(blocks).chain(walls.iter().filter_map(stops)).chain(edge);
    End { time, point: tip.at(time), causes: causes.collect() }
}
