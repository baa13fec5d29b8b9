//! Accepted sheets that are about the side from which a tip comes (SHEETS 4.14): walls given from either end, tracks that
//! run every way, and two causes at one time, most of them with different sides, of which only the named one counts.

use super::{late, track, wall};
use crate::plane::Vector;
use crate::sheet::{listing, read, Command};

const WAYS: [(i64, i64); 8] = [(1, 0), (1, 1), (0, 1), (-1, 1), (-1, 0), (-1, -1), (0, -1), (1, -1)];

/// A point on each border of the sheet, with the way out over it.
const OUTWARD: [((i64, i64), (i64, i64)); 4] =
    [((4095, 2000), (1, 0)), ((2000, 4095), (0, 1)), ((0, 2000), (-1, 0)), ((2000, 0), (0, -1))];

/// When the tip comes to the point.
const TIME: i64 = 10;

/// A track that comes to the point so long after its start, at 0.
fn coming(id: u16, to: Vector, speed: Vector, age: i64) -> Command {
    let start = to - speed * age;
    track(id, start.x as u16, start.y as u16, speed.x as i8, speed.y as i8)
}

/// A wall between two points. Outside the sheet a coordinate is above 4095, which is refused.
fn between(id: u16, a: Vector, b: Vector) -> Command {
    wall(id, a.x as u16, a.y as u16, b.x as u16, b.y as u16)
}

/// What can end a tip with the speed 10 · `way` at the point at `TIME`.
fn causes(id: u16, at: Vector, way: Vector) -> [Command; 10] {
    let left = Vector { x: -way.y, y: way.x };
    // Not opposite to each other, so that each comes on a line of its own.
    let (to_left, to_right) = (left * 10, way * 5 - left * 10);
    let opened = |speed: Vector| late(id, at.x as u16, at.y as u16, speed.x as i8, speed.y as i8, 4);
    [
        coming(id, at, to_left, TIME - 3),
        coming(id, at, to_right, TIME - 4),
        coming(id, at, to_left, TIME),
        coming(id, at, to_right, TIME),
        opened(way * 7),
        opened(to_left),
        between(id, at - left * 20, at + left * 30),
        between(id, at + left * 20, at - left * 30),
        between(id, at, at + way * 20),
        between(id, at + way * 20, at),
    ]
}

/// A tip with two causes at one time, the first of them with the smaller id.
fn two_causes() -> Vec<Vec<Command>> {
    let at = Vector::new(2000, 1000);
    let mut sheets = Vec::new();
    for (x, y) in WAYS.into_iter().step_by(2) {
        let (way, tip) = (Vector { x, y }, coming(5, at, Vector { x, y } * 10, TIME));
        for (one, first) in causes(3, at, way).into_iter().enumerate() {
            let others = causes(8, at, way).into_iter().enumerate().filter(|(other, _)| *other != one);
            sheets.extend(others.map(|(_, second)| vec![tip, first, second]));
        }
    }
    sheets
}

/// A tip that comes to the edge, alone and as it has another cause.
fn at_the_edge() -> Vec<Vec<Command>> {
    let mut sheets = Vec::new();
    for ((x, y), (vx, vy)) in OUTWARD {
        let (at, way) = (Vector { x, y }, Vector { x: vx, y: vy });
        let tip = coming(5, at, way * 10, TIME);
        sheets.push(vec![tip]);
        sheets.extend(causes(3, at, way).map(|cause| vec![tip, cause]));
    }
    sheets
}

/// A tip each way against a wall each way, and against a track each way that has passed or comes together with it.
fn every_way() -> Vec<Vec<Command>> {
    let at = Vector::new(1000, 3000);
    let mut sheets = Vec::new();
    for (vx, vy) in WAYS {
        for (wx, wy) in WAYS {
            let (tip, other) = (coming(5, at, Vector { x: vx, y: vy } * 4, TIME), Vector { x: wx, y: wy } * 3);
            sheets.push(vec![tip, between(5, at - other * 5, at + other * 9)]);
            sheets.extend([TIME - 2, TIME].map(|age| vec![tip, coming(6, at, other, age)]));
        }
    }
    sheets
}

/// The sheet `sides` of examples/: a wall from its left and one from its right, one along, and two tips that meet.
pub fn example() -> Vec<u8> {
    listing([
        track(1, 100, 100, 10, 0),
        track(2, 100, 300, 10, 0),
        track(3, 200, 400, 10, 0),
        track(4, 100, 500, 10, 0),
        track(5, 200, 460, 0, 4),
        wall(1, 200, 50, 200, 150),
        wall(2, 200, 350, 200, 250),
        wall(3, 300, 400, 400, 400),
        wall(4, 200, 500, 300, 500),
    ])
}

/// Without the few that are refused: an opening at the point where a wall is or another track opens.
pub fn sheets() -> Vec<Vec<u8>> {
    let sheets = [two_causes(), at_the_edge(), every_way()].concat();
    sheets.into_iter().map(listing).filter(|sheet| read(sheet).is_ok()).collect()
}
