//! Accepted sheets in which the rule of ending has something to decide.

use super::{track, wall};
use crate::sheet::{listing, Command};

/// Tips on one line going the same way, behind one another, slower and faster.
fn behind() -> Vec<Vec<Command>> {
    let pair = |first, second| vec![track(1, 10, 50, first, 0), track(2, 30, 50, second, 0)];
    vec![
        pair(5, 5),
        pair(1, 9),
        pair(9, 1),
        pair(-3, -3),
        pair(-9, -1),
        pair(-1, -9),
        pair(-1, 9),
        vec![track(5, 10, 10, 1, 1), track(4, 30, 30, 2, 2), track(3, 20, 20, 9, 9)],
        vec![track(1, 10, 50, 9, 0), track(2, 30, 50, 1, 0), track(3, 20, 40, 0, 9)],
        vec![track(1, 10, 50, 9, 0), track(2, 30, 50, 1, 0), wall(1, 20, 50, 25, 50)],
        vec![track(1, 4095, 7, 0, 1), track(2, 4095, 9, 0, 1), track(3, 4095, 5, 0, 63)],
    ]
}

/// A wall along the tip's line, a wall's end met, walls at one point, a wall at the edge.
fn against_walls() -> Vec<Vec<Command>> {
    let tip = track(1, 100, 100, 10, 0);
    vec![
        vec![tip, wall(1, 200, 100, 300, 100)],
        vec![tip, wall(1, 300, 100, 200, 100)],
        vec![tip, wall(1, 50, 100, 80, 100)],
        vec![tip, wall(1, 203, 100, 203, 99)],
        vec![tip, wall(1, 203, 101, 203, 102)],
        vec![tip, wall(9, 200, 50, 200, 150), wall(8, 150, 50, 250, 150)],
        vec![tip, wall(8, 200, 100, 300, 100), wall(9, 200, 100, 100, 200)],
        vec![tip, wall(0, 4095, 0, 4095, 4095)],
        vec![tip, wall(65535, 4095, 100, 4095, 101)],
        vec![track(1, 0, 0, 1, 1), wall(7, 4095, 4095, 4094, 4095)],
        vec![track(1, 3, 0, 0, 1), wall(7, 0, 1, 128, 2)],
        vec![track(1, 4000, 1, -63, 62), wall(7, 1, 4000, 2, 4095), wall(6, 0, 3999, 1, 0)],
    ]
}

/// Several causes at one time: the class and then the smallest id decide, s gives the kind.
fn several_causes() -> Vec<Vec<Command>> {
    let (right, up) = (track(3, 100, 100, 10, 0), track(7, 200, 0, 0, 10));
    vec![
        // Meets 7 where 5 had passed; the other way round, meets 5 where 7 had passed.
        vec![right, up, track(5, 190, 90, 5, 5)],
        vec![right, track(5, 200, 0, 0, 10), track(7, 190, 90, 5, 5)],
        vec![right, up, track(5, 150, 150, 10, -10)],
        vec![right, up, track(5, 150, 150, 1, -1)],
        // Where a wall had ended 7, and where it ends both at once.
        vec![right, track(7, 200, 50, 0, 10), wall(1, 150, 100, 250, 100), track(9, 0, 0, 1, 1)],
        vec![right, track(7, 200, 50, 0, 10), wall(1, 190, 110, 210, 90)],
        vec![right, track(7, 200, 50, 0, 10), wall(1, 190, 90, 210, 110)],
        vec![right, up, wall(1, 190, 110, 210, 90)],
        // Tracks and the edge at one time.
        vec![track(1, 4085, 5, 10, 0), track(2, 4095, 0, 0, 5)],
        vec![track(1, 4085, 5, 10, 0), track(2, 4095, 0, 0, 6)],
        vec![track(1, 4085, 5, 10, 0), track(2, 4095, 4, 0, 63)],
        vec![track(2, 4085, 4085, 10, 10), track(1, 4095, 4085, 0, 10), track(0, 4085, 4095, 10, 0)],
        vec![track(1, 4090, 9, 5, 0), wall(4, 4095, 9, 4095, 10)],
        vec![track(1, 4095, 9, 1, 0), track(2, 4090, 4, 5, 5)],
        vec![track(0, 4095, 0, 1, -1), track(1, 4095, 9, 0, -9)],
    ]
}

/// A crossing counts only if the other tip got there, at the latest at its very end.
fn reached_or_not() -> Vec<Vec<Command>> {
    let right = track(1, 100, 100, 10, 0);
    let up = track(2, 200, 50, 0, 50);
    vec![
        vec![right, up, wall(1, 190, 99, 210, 99)],
        vec![right, up, wall(1, 190, 100, 199, 100), wall(2, 200, 101, 210, 101)],
        vec![right, up, wall(1, 201, 100, 210, 100), wall(2, 200, 99, 210, 98)],
        vec![right, up, track(3, 150, 99, 50, 0)],
        vec![right, up, track(3, 150, 98, 50, 0), wall(1, 160, 90, 160, 98)],
        // A chain of causes, each void because the one before it holds.
        vec![
            track(1, 0, 100, 1, 0),
            track(2, 10, 120, 0, -1),
            track(3, 5, 110, 2, 0),
            track(4, 8, 90, 0, 10),
            track(5, 0, 105, 4, 0),
        ],
        // Each of three tips is ended by the next.
        vec![track(1, 100, 100, 20, 0), track(2, 210, 90, -5, 10), track(3, 200, 210, -10, -15)],
    ]
}

/// Starts on the edge and at corners, going out, along and in.
fn at_the_edge() -> Vec<Vec<Command>> {
    let ways = [(1, 0), (1, 1), (0, 1), (-1, 1), (-1, 0), (-1, -1), (0, -1), (1, -1)];
    let starts = [(0, 0), (4095, 0), (0, 4095), (4095, 4095), (0, 70), (70, 0), (4095, 70), (70, 4095)];
    let from = |(x, y)| ways.map(|(vx, vy)| vec![track(1, x, y, vx, vy)]);
    starts.into_iter().flat_map(from).collect()
}

/// Tips from, through and to corners and borders of cells, in all directions; two that cross at a
/// corner, one ended there by a wall, one just before it.
fn on_borders() -> Vec<Vec<Command>> {
    let ways = [(1, 0), (1, 1), (0, 1), (-1, 1), (-1, 0), (-1, -1), (0, -1), (1, -1)];
    let tip = |id, steps: i64, (vx, vy): (i64, i64), speed: i64| {
        let part = |way: i64| (2048 - steps * way) as u16;
        track(id, part(vx), part(vy), (vx * speed) as i8, (vy * speed) as i8)
    };
    let mut sheets = Vec::new();
    for (index, way) in ways.into_iter().enumerate() {
        let next = ways[(index + 1) % ways.len()];
        let across = wall(1, 2048, 2048, (2048 - 40 * way.1) as u16, (2048 + 40 * way.0) as u16);
        sheets.extend([
            vec![tip(1, 0, way, 1)],
            vec![tip(1, 128, way, 3), across],
            vec![tip(1, 129, way, 3), across],
            vec![tip(1, 512, way, 8), tip(2, 512, next, 8)],
            vec![tip(1, 512, way, 8), tip(2, 512, next, 7)],
            vec![tip(1, 512, way, 8), tip(2, 0, next, 1)],
            vec![tip(1, 64, way, 1), wall(1, 2047, 2047, 2049, 2047), wall(2, 2047, 2049, 2049, 2049)],
        ]);
    }
    sheets
}

/// Many tips at one point at one time, with ids falling, and one that comes later.
fn stars() -> Vec<Vec<Command>> {
    let ways = [(1, 0), (2, 1), (1, 2), (0, 1), (-1, 3), (-3, 1), (-3, -1), (1, -2)];
    let tip = |id: usize, steps: i64, (vx, vy): (i64, i64)| {
        let part = |speed: i64| (2000 - steps * speed) as u16;
        track(90 - id as u16, part(vx), part(vy), vx as i8, vy as i8)
    };
    let star = |steps: i64| -> Vec<Command> { ways.iter().enumerate().map(|(id, way)| tip(id, steps, *way)).collect() };
    let with = |last| [star(7), vec![last]].concat();
    vec![
        star(1),
        star(7),
        star(600),
        with(tip(40, 8, (-1, -1))),
        with(tip(40, 6, (-1, -1))),
        with(wall(3, 1990, 2003, 2010, 1997)),
    ]
}

pub fn sheets() -> Vec<Vec<u8>> {
    let sheets = [behind(), against_walls(), several_causes(), reached_or_not(), at_the_edge(), on_borders(), stars()];
    sheets.concat().into_iter().map(listing).collect()
}
