//! Refusals 9 and 10 where they depend on the plane: starts on and beside walls. And sheets near to
//! these that are accepted: walls that overlap, tips on one line.

use super::{track, wall};
use crate::plane::Vector;
use crate::sheet::{listing, Command};

fn both_orders(a: Command, b: Command) -> [Vec<u8>; 2] {
    [listing([a, b]), listing([b, a])]
}

/// A start at every point around each of some walls, before the wall and after it.
fn starts_near_walls() -> Vec<Vec<u8>> {
    let walls = [
        wall(1, 11, 12, 14, 12),
        wall(1, 12, 14, 12, 11),
        wall(1, 11, 11, 14, 14),
        wall(1, 14, 11, 11, 14),
        wall(1, 11, 11, 15, 13),
        wall(1, 13, 15, 11, 11),
    ];
    let around = || (10..=15).flat_map(|x| (10..=15).map(move |y| track(1, x, y, 1, 2)));
    let near = |wall| around().flat_map(move |start| both_orders(start, wall));
    walls.into_iter().flat_map(near).collect()
}

/// Long walls: a start one unit off the line, and one on it beyond an end.
fn starts_beside_long_walls() -> Vec<Vec<u8>> {
    let slanted = wall(1, 1, 2, 4095, 4094);
    let across = wall(1, 0, 4095, 4095, 0);
    let edge = wall(1, 0, 0, 4095, 0);
    let pairs = [
        (slanted, track(1, 2048, 2048, 1, 0)),
        (slanted, track(1, 2047, 2047, 1, 0)),
        (slanted, track(1, 2048, 2049, 1, 0)),
        (slanted, track(1, 1, 2, 1, 0)),
        (slanted, track(1, 4095, 4094, 1, 0)),
        (across, track(1, 2047, 2048, 1, 0)),
        (across, track(1, 2048, 2048, 1, 0)),
        (across, track(1, 4094, 1, 1, 0)),
        (edge, track(1, 4095, 0, 1, 0)),
        (edge, track(1, 0, 0, 0, 1)),
        (edge, track(1, 77, 0, 0, 1)),
        (edge, track(1, 77, 1, 0, -1)),
    ];
    pairs.into_iter().flat_map(|(wall, track)| both_orders(wall, track)).collect()
}

/// Walls that coincide, overlap, touch, cross or lie on the sheet's edge: accepted.
fn walls_together() -> Vec<Vec<u8>> {
    let others = [
        wall(2, 10, 10, 20, 20),
        wall(2, 20, 20, 10, 10),
        wall(2, 15, 15, 30, 30),
        wall(2, 12, 12, 13, 13),
        wall(2, 20, 20, 20, 30),
        wall(2, 10, 20, 20, 10),
        wall(2, 0, 0, 0, 4095),
        wall(2, 4095, 4095, 0, 4095),
    ];
    let with_first = |other| both_orders(wall(1, 10, 10, 20, 20), other);
    others.into_iter().flat_map(with_first).collect()
}

fn moving(id: u16, start: Vector, speed: Vector) -> Command {
    track(id, start.x as u16, start.y as u16, speed.x as i8, speed.y as i8)
}

/// Two tips on one line or just off it, in all directions, with equal and different speeds.
fn tips_on_one_line() -> Vec<Vec<u8>> {
    let ways = [(1, 0), (-1, 0), (0, 1), (0, -1), (1, 1), (-1, 1), (1, -1), (-1, -1), (2, 1), (-3, 2)];
    let factors = [1, -1, 2, -2];
    let mut sheets = Vec::new();
    for way in ways.map(|(x, y)| Vector::new(x, y)) {
        let here = Vector::new(50, 60);
        let across = Vector { x: -way.y, y: way.x };
        let beside = Vector { x: here.x + way.x * 3 + 1, y: here.y + way.y * 3 };
        for there in [here + way * 3, beside] {
            for first in factors {
                for second in factors {
                    sheets.push(listing([moving(1, here, way * first), moving(2, there, way * second)]));
                }
                sheets.push(listing([moving(1, here, way * first), moving(2, there, across)]));
                sheets.push(listing([moving(1, here, across), moving(2, there, way * first)]));
            }
        }
    }
    sheets
}

/// A facing pair with other commands before, between and after it.
fn facing_among_others() -> Vec<Vec<u8>> {
    let (left, right) = (track(1, 10, 50, 63, 0), track(2, 4000, 50, -1, 0));
    let (between, other) = (wall(1, 99, 40, 99, 60), track(3, 500, 50, 0, 7));
    let sheets = [
        vec![left, between, right, other],
        vec![between, right, other, left],
        vec![other, right, left, between],
        vec![track(3, 500, 50, 1, 0), right, left],
        vec![track(3, 500, 50, -1, 0), right, left],
        vec![left, track(3, 500, 50, 2, 0), right],
    ];
    sheets.map(listing).to_vec()
}

pub fn sheets() -> Vec<Vec<u8>> {
    [starts_near_walls(), starts_beside_long_walls(), walls_together(), tips_on_one_line(), facing_among_others()]
        .concat()
}
