//! Sheets with two tips on one line that run toward each other (SHEETS 4.15). Most stand on lines through a
//! corner of cells, in several directions.

use super::{late, track, wall};
use crate::line::Line;
use crate::plane::Vector;
use crate::sheet::{listing, read, Command};

const WAYS: [(i64, i64); 4] = [(1, 0), (0, -1), (-1, 1), (-3, 5)];

/// The two sheets of document 02, by name.
pub fn document() -> [(&'static str, Vec<u8>); 2] {
    let first = track(1, 0, 0, 1, 0);
    [
        ("facing meet", listing([first, track(2, 10, 0, -4, 0)])),
        ("facing wall", listing([first, track(2, 10, 0, -1, 0), wall(1, 8, 0, 8, 5)])),
    ]
}

/// The sheet `facing` of examples/. On four lines: two meet; a wall has ended one; a late one opens on a trace; a trace
/// has ended one.
pub fn example() -> Vec<u8> {
    listing([
        track(1, 100, 100, 10, 0),
        track(2, 200, 100, -40, 0),
        track(3, 100, 150, 10, 0),
        track(4, 200, 150, -10, 0),
        track(5, 100, 250, 10, 0),
        late(6, 150, 250, -10, 0, 8),
        track(7, 100, 320, 10, 0),
        track(8, 200, 320, -10, 0),
        track(9, 160, 300, 0, 10),
        wall(1, 180, 150, 180, 200),
        wall(2, 220, 230, 220, 270),
        wall(3, 140, 370, 180, 370),
    ])
}

/// Places 0 to 10, of which 5 is a corner of four cells at every figure but 1.
fn lines() -> impl Iterator<Item = Line> {
    WAYS.into_iter().map(|(x, y)| Line::through(Vector::new(2048, 2048), 5, Vector { x, y }))
}

/// With no one else, at several speeds, and with either id.
fn pairs(line: Line) -> Vec<Vec<Command>> {
    let paces = [(1, -1), (1, -4), (3, -2), (5, -1), (2, -7)];
    let pair = |(pace, other), (id, other_id)| vec![line.tip(id, 0, pace, 0), line.tip(other_id, 10, other, 0)];
    paces.into_iter().flat_map(|paces| [pair(paces, (1, 2)), pair(paces, (2, 1))]).collect()
}

/// Walls across the line and along it, before, at and behind the place where the tips would meet. A wall's end is enough.
fn at_walls(line: Line) -> Vec<Vec<Command>> {
    let tips = |pace| [line.tip(1, 0, pace, 0), line.tip(2, 10, -1, 0)];
    let across = |id, place: i64| line.wall(id, (place, 0), (place, 5));
    let mut sheets = Vec::new();
    for pace in [1, 2, 4] {
        let with = |walls: &[Command]| [&tips(pace)[..], walls].concat();
        sheets.extend([2, 4, 5, 6, 8].map(|place| with(&[across(3, place)])));
        sheets.push(with(&[line.wall(3, (7, -1), (8, 1))]));
        sheets.push(with(&[line.wall(3, (7, 0), (8, 0))]));
        sheets.push(with(&[line.wall(3, (6, 0), (3, 0))]));
        sheets.push(with(&[across(3, 8), line.wall(2, (8, 0), (9, 0))]));
        sheets.push(with(&[across(3, 8), line.wall(4, (7, -1), (9, 1)), across(0, 2)]));
    }
    sheets
}

/// A trace has ended the tip from the right at place 8, or comes there together with it, or after it; its id is below
/// those of the two, between them or above. Now and then a third comes to that place with the tip from the left.
fn at_traces(line: Line) -> Vec<Vec<Command>> {
    let mut sheets = Vec::new();
    for id in [1, 5, 9] {
        for (left, right) in [(3, 7), (7, 3)] {
            let pair = [line.tip(left, 0, 1, 0), line.tip(right, 10, -1, 0)];
            let with = |more: &[Command]| [&pair[..], more].concat();
            let crossing = |time| line.coming(id, 8, (0, 1), 1, time);
            sheets.extend([1, 2, 3, 7].map(|time| with(&[crossing(time)])));
            sheets.push(with(&[crossing(1), line.coming(4, 8, (1, -1), 3, 8)]));
            sheets.push(with(&[crossing(1), line.wall(1, (8, 0), (8, 2))]));
            sheets.push(with(&[crossing(2), line.wall(1, (7, -1), (9, 1))]));
            sheets.push(with(&[line.coming(id, 5, (0, -2), 4, 5)]));
            sheets.push(with(&[line.coming(id, 5, (1, -1), 2, 4)]));
        }
    }
    sheets
}

/// The tip from the left is at place 6 at 6; another opens there before, just then, and after. A wall or a trace may have
/// ended the first at place 4, or a trace has passed place 6.
fn late_ones(line: Line) -> Vec<Vec<Command>> {
    let mut sheets = Vec::new();
    for time in [0, 3, 5, 6, 7, 20] {
        for (id, other) in [(1, 2), (2, 1)] {
            let pair = [line.tip(id, 0, 1, 0), line.tip(other, 6, -2, time)];
            let with = |more: &[Command]| [&pair[..], more].concat();
            sheets.push(with(&[]));
            sheets.push(with(&[line.wall(1, (4, 0), (4, 3))]));
            sheets.push(with(&[line.coming(3, 4, (0, 1), 2, 2)]));
            sheets.push(with(&[line.coming(0, 6, (1, 2), 1, 2)]));
        }
        sheets.push(vec![line.tip(1, 0, 1, 4), line.tip(2, 6, -1, time)]);
        sheets.push(vec![line.tip(1, 0, 2, 4), line.tip(2, 6, -1, time), line.tip(0, 9, -3, time + 1)]);
    }
    sheets
}

/// Three and four on the line: one in front of a tip that faces another, one behind; late ones among them.
fn with_others_on_the_line(line: Line) -> Vec<Vec<Command>> {
    let mut sheets = Vec::new();
    for time in [0, 1, 2, 3, 9] {
        let left = |id| line.tip(id, 0, 2, 0);
        sheets.extend([
            vec![left(1), line.tip(3, 4, 1, time), line.tip(2, 10, -1, 0)],
            vec![left(4), line.tip(3, 4, 1, time), line.tip(2, 10, -1, 0), line.tip(1, 12, -3, 0)],
            vec![left(1), line.tip(3, 4, -1, time), line.tip(2, 10, -4, 0)],
            vec![left(4), line.tip(3, 4, -1, time), line.tip(2, 10, -4, 0), line.wall(1, (3, 0), (3, 2))],
            vec![left(5), line.tip(3, 7, -1, time), line.tip(2, 10, -4, 0), line.coming(4, 6, (0, 3), 1, 1)],
            vec![left(5), line.tip(3, 7, -1, time), line.tip(6, 8, 2, 0), line.tip(2, 10, -3, 1)],
        ]);
    }
    sheets
}

/// The tip from the right ends at a start on the line, or as it opens; the one from the left comes there.
fn at_starts(line: Line) -> Vec<Vec<Command>> {
    let mut sheets = Vec::new();
    for id in [0, 4, 9] {
        let left = line.tip(3, 0, 1, 0);
        let right = line.tip(5, 10, -1, 0);
        // Opens at place 7 beside the line, before the right one comes, just then, after it.
        sheets.extend([1, 3, 4].map(|time| vec![left, right, line.coming(id, 7, (1, 2), 0, time)]));
        // The right one opens on an old trace.
        sheets.extend([2, 4, 9].map(|time| vec![left, line.tip(5, 7, -1, time), line.coming(id, 7, (-1, 2), 2, 2)]));
        // It comes to the start of one ahead of it, which opens just then.
        sheets.push(vec![left, right, line.tip(id, 7, -2, 3)]);
        sheets.push(vec![left, right, line.tip(id, 7, -2, 3), line.coming(1, 7, (1, 1), 2, 2)]);
    }
    sheets
}

/// A border, and a corner: one comes to it, and another opens there or near it and comes back, at several times.
fn at_the_edge() -> Vec<Vec<Command>> {
    let at =
        [((4095, 2000), (1, 0)), ((2000, 4095), (0, 1)), ((0, 9), (-1, 0)), ((0, 0), (-1, -1)), ((4095, 0), (2, -2))];
    let mut sheets = Vec::new();
    for ((x, y), (vx, vy)) in at {
        let line = Line::through(Vector::new(x, y), 10, Vector { x: vx, y: vy });
        for time in [0, 9, 10, 11, 40] {
            let coming = line.tip(2, 0, 1, 0);
            sheets.push(vec![coming, line.tip(1, 10, -1, time)]);
            sheets.push(vec![coming, line.tip(3, 9, -2, time)]);
            sheets.push(vec![coming, line.tip(3, 8, 1, time), line.tip(1, 10, -1, 4)]);
        }
    }
    // Along the border.
    let along = |y| vec![track(1, 100, y, 7, 0), track(2, 4000, y, -5, 0), late(3, 300, y, 0, 1, 20)];
    sheets.extend([0, 4095].map(along));
    sheets
}

/// Three pairs each way that cross each other, at nine speeds; most ends follow from others.
fn weaves() -> Vec<Vec<Command>> {
    let weave = |seed: i64| -> Vec<Command> {
        let mut tips = Vec::new();
        for number in 0..3 {
            let pace = |by: i64| 1 + (seed * 7 + number * 5 + by * by * 3) % 9;
            let (here, id) = (1000 + 40 * number, 4 * number as u16);
            let level = Line { origin: Vector::new(960, here), way: Vector::new(1, 0) };
            let steep = Line { origin: Vector::new(here, 960), way: Vector::new(0, 1) };
            tips.extend([level.tip(id, 0, pace(1), 0), level.tip(id + 1, 160, -pace(2), 0)]);
            tips.extend([steep.tip(id + 2, 0, pace(3), 0), steep.tip(30 - id, 160, -pace(4), (seed % 5) as u16)]);
        }
        tips
    };
    (0..24).map(weave).collect()
}

/// The greatest distances, times and speeds; many tips on one line.
fn extremes() -> Vec<Vec<Command>> {
    let many = |count: u16, of: &dyn Fn(u16) -> Command| (0..count).map(of).collect::<Vec<_>>();
    let way = |right| if right { 1 } else { -1 };
    vec![
        vec![track(1, 0, 0, 63, 63), track(2, 4095, 4095, -62, -62)],
        vec![track(1, 0, 0, 1, 1), late(2, 4095, 4095, -1, -1, 4095)],
        vec![late(1, 0, 4095, 1, -1, 4094), late(2, 4095, 0, -1, 1, 4095)],
        vec![late(65535, 0, 7, 1, 0, 4095), late(0, 4095, 7, -1, 0, 4095)],
        vec![
            track(1, 0, 0, 1, 0),
            track(2, 4095, 0, -63, 0),
            wall(1, 4000, 0, 4095, 4095),
            wall(2, 4094, 0, 3000, 4095),
        ],
        vec![track(1, 0, 1, 63, 62), track(2, 3969, 3907, -63, -62), wall(1, 3000, 2000, 1001, 4095)],
        many(60, &|i| track(i, 50 * i, 100, way(i % 2 == 0) * (1 + (i * 7 % 13) as i8), 0)),
        many(60, &|i| late(59 - i, 50 * i, 50 * i, way(i < 31) * 5, way(i < 31) * 5, i * 37 % 64)),
        many(256, &|i| late(i * 77 % 256, 9, 16 * i, 0, way(i % 3 == 1) * (1 + (i % 4) as i8), i * 5 % 7)),
    ]
}

/// Without those in which a start is on a wall or used already.
pub fn sheets() -> Vec<Vec<u8>> {
    let patterns = [pairs, at_walls, at_traces, late_ones, with_others_on_the_line, at_starts];
    let on_lines = lines().flat_map(|line| patterns.into_iter().flat_map(move |pattern| pattern(line)));
    let others = [at_the_edge(), weaves(), extremes()].concat();
    let sheets = on_lines.chain(others).map(listing).filter(|sheet| read(sheet).is_ok());
    document().into_iter().map(|(_, sheet)| sheet).chain([example()]).chain(sheets).collect()
}
