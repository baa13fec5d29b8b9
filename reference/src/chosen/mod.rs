//! Chosen sheets: the starred ones, each line of the refusal table at its limits, endings that the
//! rule has to tell apart, start times in all of these, shapes, sides, tips that face, and end points halfway between
//! two 64ths.

pub mod document;
pub mod endings;
pub mod facing;
pub mod form;
pub mod geometry;
pub mod halves;
pub mod handed_in;
pub mod late;
pub mod limits;
pub mod names;
pub mod shapes;
pub mod sides;
pub mod together;

use crate::sheet::{Command, Track, Wall};

pub fn track(id: u16, x: u16, y: u16, vx: i8, vy: i8) -> Command {
    Command::Track(Track { id, x, y, vx, vy, start_time: 0 })
}

/// By 03, whatever the start time.
pub fn late(id: u16, x: u16, y: u16, vx: i8, vy: i8, start_time: u16) -> Command {
    Command::LateTrack(Track { id, x, y, vx, vy, start_time })
}

pub fn wall(id: u16, ax: u16, ay: u16, bx: u16, by: u16) -> Command {
    Command::Wall(Wall { id, ax, ay, bx, by })
}

/// `count` tracks with ids from 0, in columns of 16, all going the same way.
pub fn tracks(count: u16) -> Vec<Command> {
    (0..count).map(|i| track(i, 10 + i / 16 * 200, 10 + i % 16 * 200, 1, 2)).collect()
}

/// `count` walls with ids from 0, between the starts of `tracks`.
pub fn walls(count: u16) -> Vec<Command> {
    (0..count)
        .map(|i| (i, 100 + i / 16 * 200, 100 + i % 16 * 200))
        .map(|(i, x, y)| wall(i, x, y, x + 20, y + 30))
        .collect()
}

/// Every chosen sheet in bytes.
pub fn all() -> Vec<Vec<u8>> {
    let other = [late::sheets(), shapes::sheets(), sides::sheets(), facing::sheets(), halves::sheets()];
    [without_start_times(), other.concat()].concat()
}

/// Those that are about neither 03 nor shapes nor sides, nor above all about facing tips or halves.
pub fn without_start_times() -> Vec<Vec<u8>> {
    let document = document::sheets().into_iter().map(|(_, sheet)| sheet);
    document
        .chain(form::sheets())
        .chain(limits::sheets())
        .chain(together::sheets())
        .chain(geometry::sheets())
        .chain(endings::sheets())
        .collect()
}
