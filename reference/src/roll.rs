//! The roll of an accepted sheet (SHEETS 4, 5), by one sweep over time.
//!
//! What could end a tip is queued first, whether or not it comes to pass: each wall and each other
//! tip's line that it runs into, and the edge. In order of time, an entry ends its tip if that still
//! runs and the other tip had not ended before it got there.
//!
//! Only of facing tips this is not all. Where one of them has ended, the other ends too if it comes
//! there, and that point is not known before the sweep has come to the first end. So each end puts an
//! entry into the queue for every tip that faces the ended one. It lies ahead of the sweep.

use crate::fraction::Fraction;
use crate::plane::Vector;
use crate::sheet::{Records, Track, Wall, MAX_COORDINATE};
use std::cmp::Reverse;
use std::collections::BinaryHeap;
use std::fmt;

#[derive(Clone, Copy, Debug, PartialEq, Eq)]
pub enum Ending {
    /// At a point that the partner had passed.
    Track(u16),
    /// Together with the partner.
    Meeting(u16),
    Wall(u16),
    Edge,
}

/// From which side a tip came to the line that ended it: the line of the partner, seen in the direction in which that
/// one runs, a wall from a to b (SHEETS 4.14).
#[derive(Clone, Copy, Debug, PartialEq, Eq, PartialOrd, Ord)]
pub enum Side {
    /// Of the edge.
    NoSide,
    Left,
    Right,
    Along,
}

#[derive(Clone, Copy, Debug, PartialEq, Eq)]
pub struct Row {
    pub id: u16,
    pub ending: Ending,
    pub time: Fraction,
    /// The end point in 64ths of a unit, rounded (SHEETS 5.4).
    pub x: u32,
    pub y: u32,
    pub side: Side,
}

impl Ending {
    pub fn kind(self) -> u8 {
        match self {
            Ending::Track(_) => 1,
            Ending::Meeting(_) => 2,
            Ending::Wall(_) => 3,
            Ending::Edge => 4,
        }
    }

    pub fn partner(self) -> u16 {
        match self {
            Ending::Track(id) | Ending::Meeting(id) | Ending::Wall(id) => id,
            Ending::Edge => 0,
        }
    }
}

impl Side {
    pub const ALL: [Side; 4] = [Side::NoSide, Side::Left, Side::Right, Side::Along];

    /// That of a tip with this speed on a line with this direction.
    fn of(speed: Vector, direction: Vector) -> Self {
        match direction.cross(speed) {
            ..0 => Side::Left,
            0 => Side::Along,
            1.. => Side::Right,
        }
    }

    pub fn number(self) -> u8 {
        match self {
            Side::NoSide => 0,
            Side::Left => 1,
            Side::Right => 2,
            Side::Along => 3,
        }
    }
}

impl Row {
    pub const LENGTH: usize = 30;

    fn new(track: &Track, time: Fraction, ending: Ending, side: Side) -> Self {
        let in_64ths = |place: Fraction| u32::try_from(place.in_64ths()).expect("an end point inside the sheet");
        let (x, y) = track.at(time);
        Row { id: track.id, ending, time, x: in_64ths(x), y: in_64ths(y), side }
    }

    /// Numerator and denominator of the time (SHEETS 5.3).
    pub fn time_in_lowest_terms(&self) -> (u64, u64) {
        let (numerator, denominator) = self.time.lowest();
        let part = |number| u64::try_from(number).expect("a time that is not negative");
        (part(numerator), part(denominator))
    }

    fn append_to(&self, bytes: &mut Vec<u8>) {
        let (numerator, denominator) = self.time_in_lowest_terms();
        bytes.extend(self.id.to_le_bytes());
        bytes.push(self.ending.kind());
        bytes.extend(self.ending.partner().to_le_bytes());
        bytes.extend(numerator.to_le_bytes());
        bytes.extend(denominator.to_le_bytes());
        bytes.extend(self.x.to_le_bytes());
        bytes.extend(self.y.to_le_bytes());
        bytes.push(self.side.number());
    }
}

/// As program `roll` prints it (SHEETS 9.1).
impl fmt::Display for Row {
    fn fmt(&self, f: &mut fmt::Formatter<'_>) -> fmt::Result {
        let Row { id, ending, x, y, side, .. } = self;
        let (numerator, denominator) = self.time_in_lowest_terms();
        let (kind, partner, side) = (ending.kind(), ending.partner(), side.number());
        write!(f, "{id} {kind} {partner} {numerator}/{denominator} {x} {y} {side}")
    }
}

/// What may end a tip. Of several at one time the first in this order is named (SHEETS 4.9): tracks,
/// walls, the edge, and within a kind the smallest id, so that the side never decides.
#[derive(Clone, Copy, Debug, PartialEq, Eq, PartialOrd, Ord)]
enum Cause {
    /// The other track's id, its place among the tracks, and when it got to the point.
    Track {
        id: u16,
        index: usize,
        reached: Fraction,
        side: Side,
    },
    Wall {
        id: u16,
        side: Side,
    },
    Edge,
}

impl Cause {
    fn side(self) -> Side {
        match self {
            Cause::Track { side, .. } | Cause::Wall { side, .. } => side,
            Cause::Edge => Side::NoSide,
        }
    }
}

/// An entry of the sweep. Its order is that of the roll, and then that of causes.
#[derive(Clone, Copy, Debug, PartialEq, Eq, PartialOrd, Ord)]
struct Event {
    time: Fraction,
    id: u16,
    index: usize,
    cause: Cause,
}

/// A time of the sheet, from the age of a tip: the time since its start (SHEETS 4.1).
fn at_age(tip: &Track, age: Fraction) -> Fraction {
    Fraction::whole(tip.start_time) + age
}

/// When tip `a` gets to a point of the line of tip `b`, when `b` got there, and from which side `a`
/// comes, if `b` is first or both come together (SHEETS 4.5, 4.14). Of two tips that face, this holds
/// if nothing else ends `b` before.
fn contact_with_track(a: &Track, b: &Track) -> Option<(Fraction, Fraction, Side)> {
    let (time, reached) = match OneLine::of(a, b) {
        None => crossing(a, b),
        Some(OneLine::SameWay) => Some(at_front_start(a, b)),
        Some(OneLine::Facing) => face_to_face(a, b),
        Some(OneLine::Apart) => None,
    }?;
    (reached <= time).then_some((time, reached, Side::of(a.speed(), b.speed())))
}

/// How two tips on one line go.
#[derive(Clone, Copy, PartialEq, Eq)]
enum OneLine {
    /// One behind the other.
    SameWay,
    /// Toward each other.
    Facing,
    /// Away from each other.
    Apart,
}

impl OneLine {
    fn of(a: &Track, b: &Track) -> Option<Self> {
        let (v, w, between) = (a.speed(), b.speed(), b.start() - a.start());
        let one_line = v.cross(w) == 0 && v.cross(between) == 0;
        let way = match (v.dot(w) > 0, v.dot(between) > 0) {
            (true, _) => OneLine::SameWay,
            (false, true) => OneLine::Facing,
            (false, false) => OneLine::Apart,
        };
        one_line.then_some(way)
    }
}

/// When each of the two tips is where their lines cross, if neither starts behind that point.
fn crossing(a: &Track, b: &Track) -> Option<(Fraction, Fraction)> {
    let (v, w, between) = (a.speed(), b.speed(), b.start() - a.start());
    let turn = v.cross(w);
    if turn == 0 {
        return None;
    }
    let (own, other) = (Fraction::new(between.cross(w), turn), Fraction::new(between.cross(v), turn));
    (own.min(other) >= Fraction::ZERO).then(|| (at_age(a, own), at_age(b, other)))
}

/// When each of two tips that go the same way on one line is at the start of the one in front. Beyond
/// that start no trace of one meets the other (SHEETS 4.8): if the tip in front has opened before the
/// one behind comes, this one ends there, and otherwise the tip in front ends as it opens.
fn at_front_start(a: &Track, b: &Track) -> (Fraction, Fraction) {
    let between = b.start() - a.start();
    let at_once = |tip: &Track| at_age(tip, Fraction::ZERO);
    if a.speed().dot(between) > 0 {
        (at_age(a, age_after(a, between)), at_once(b))
    } else {
        (at_once(a), at_age(b, age_after(b, -between)))
    }
}

/// The age at which the tip has gone this way, which lies along its line.
fn age_after(tip: &Track, way: Vector) -> Fraction {
    let speed = tip.speed();
    Fraction::new(speed.dot(way), speed.dot(speed))
}

/// When tip `a` comes upon tip `b`, which faces it, and when `b` was there. If `b` would have passed the
/// start of `a` before `a` opens, `a` opens on the trace of `b`; if it is the other way round, this is
/// no cause for `a`; else they come together.
fn face_to_face(a: &Track, b: &Track) -> Option<(Fraction, Fraction)> {
    let between = b.start() - a.start();
    // How fast each comes nearer, where the whole way is the square of `between`.
    let (own, other) = (a.speed().dot(between), -b.speed().dot(between));
    let (opens, other_opens) = (i64::from(a.start_time), i64::from(b.start_time));
    let together = Fraction::new(between.dot(between) + own * opens + other * other_opens, own + other);
    let (opens, other_opens) = (Fraction::whole(opens), Fraction::whole(other_opens));
    if together < opens {
        Some((opens, at_age(b, age_after(b, -between))))
    } else {
        (together >= other_opens).then_some((together, together))
    }
}

/// When the tip gets to the wall, and from which side.
fn contact_with_wall(track: &Track, wall: &Wall) -> Option<(Fraction, Side)> {
    let (v, along) = (track.speed(), wall.b() - wall.a());
    let (to_a, to_b) = (wall.a() - track.start(), wall.b() - track.start());
    let turn = v.cross(along);
    let age = if turn == 0 {
        let nearer = v.dot(to_a).min(v.dot(to_b));
        let ahead = v.cross(to_a) == 0 && nearer > 0;
        ahead.then(|| Fraction::new(nearer, v.dot(v)))
    } else {
        let part = Fraction::new(to_a.cross(v), turn);
        let on_wall = Fraction::ZERO <= part && part <= Fraction::ONE;
        on_wall.then(|| Fraction::new(to_a.cross(along), turn))
    };
    let age = age.filter(|age| *age >= Fraction::ZERO)?;
    Some((at_age(track, age), Side::of(v, along)))
}

/// The last moment inside the sheet (SHEETS 4.4).
fn contact_with_edge(track: &Track) -> Fraction {
    let last = |start: u16, speed: i8| {
        let room = if speed > 0 { MAX_COORDINATE - start } else { start };
        (speed != 0).then(|| Fraction::new(room, speed.unsigned_abs()))
    };
    let ages = [last(track.x, track.vx), last(track.y, track.vy)];
    at_age(track, ages.into_iter().flatten().min().expect("a tip that moves"))
}

fn events_of(index: usize, records: &Records) -> Vec<Event> {
    let track = &records.tracks[index];
    let event = |time, cause| Event { time, id: track.id, index, cause };
    let mut events = vec![event(contact_with_edge(track), Cause::Edge)];
    for wall in &records.walls {
        if let Some((time, side)) = contact_with_wall(track, wall) {
            events.push(event(time, Cause::Wall { id: wall.id, side }));
        }
    }
    for (other, partner) in records.tracks.iter().enumerate().filter(|(other, _)| *other != index) {
        if let Some((time, reached, side)) = contact_with_track(track, partner) {
            events.push(event(time, Cause::Track { id: partner.id, index: other, reached, side }));
        }
    }
    events
}

/// As a tip has ended: what becomes of the tips that face it, if they come to its end (SHEETS 4.5, 4.15). One
/// that is there at that very time needs no new entry, since the two come together; nor does one that
/// starts beyond, as it opens on the trace.
fn events_at_end(ended: usize, end: Fraction, records: &Records) -> Vec<Event> {
    let partner = &records.tracks[ended];
    let facing = |tip: &Track| OneLine::of(tip, partner) == Some(OneLine::Facing);
    let mut events = Vec::new();
    for (index, tip) in records.tracks.iter().enumerate().filter(|(_, tip)| facing(tip)) {
        let age = age_at(tip, partner.at(end));
        // In lowest terms: such an end may in turn be one to which another tip comes.
        let time = at_age(tip, age).reduced();
        if age >= Fraction::ZERO && time > end {
            let cause = Cause::Track { id: partner.id, index: ended, reached: end, side: Side::Along };
            events.push(Event { time, id: tip.id, index, cause });
        }
    }
    events
}

/// The age of the tip at a point of its line.
fn age_at(tip: &Track, (x, y): (Fraction, Fraction)) -> Fraction {
    let along = |to: Fraction, start: u16, speed: i8| (to - Fraction::whole(start)).over(Fraction::whole(speed));
    if tip.vx != 0 {
        along(x, tip.x, tip.vx)
    } else {
        along(y, tip.y, tip.vy)
    }
}

/// The roll of an accepted sheet, by time and then by id (SHEETS 5.5).
pub fn roll(records: &Records) -> Vec<Row> {
    let events = (0..records.tracks.len()).flat_map(|index| events_of(index, records));
    let mut queue: BinaryHeap<Reverse<Event>> = events.map(Reverse).collect();
    let mut ended: Vec<Option<Fraction>> = vec![None; records.tracks.len()];
    let mut rows = Vec::with_capacity(records.tracks.len());
    while let Some(Reverse(Event { time, index, cause, .. })) = queue.pop() {
        let counts = match cause {
            Cause::Track { index: other, reached, .. } => ended[other].is_none_or(|end| end >= reached),
            Cause::Wall { .. } | Cause::Edge => true,
        };
        if ended[index].is_none() && counts {
            ended[index] = Some(time);
            rows.push(Row::new(&records.tracks[index], time, ending(cause, time), cause.side()));
            queue.extend(events_at_end(index, time, records).into_iter().map(Reverse));
        }
    }
    rows
}

fn ending(cause: Cause, time: Fraction) -> Ending {
    match cause {
        Cause::Track { id, reached, .. } if reached < time => Ending::Track(id),
        Cause::Track { id, .. } => Ending::Meeting(id),
        Cause::Wall { id, .. } => Ending::Wall(id),
        Cause::Edge => Ending::Edge,
    }
}

/// The rows in bytes, one behind the other (SHEETS 5.6).
pub fn roll_bytes(rows: &[Row]) -> Vec<u8> {
    let mut bytes = Vec::with_capacity(rows.len() * Row::LENGTH);
    for row in rows {
        row.append_to(&mut bytes);
    }
    bytes
}
