//! The starred sheets A to K, as in examples/, and two tips on one line.

use super::{track, wall};
use crate::sheet::{listing, Command};

/// Two tips on one line, facing or back to back.
fn on_one_line(way: i8) -> Vec<Command> {
    vec![track(1, 0, 0, way, 0), track(2, 10, 0, -way, 0)]
}

fn sheet_d() -> Vec<Command> {
    (0..64).map(|i| track(i + 1, 10 * i, 0, 32 - i as i8, 63)).collect()
}

fn sheet_e() -> Vec<Command> {
    vec![track(1, 100, 100, 10, 0), track(2, 200, 90, 0, 10), track(3, 210, 200, -10, 0), track(4, 100, 210, 0, -10)]
}

/// Each sheet's name and bytes; `H passed` and `I up` are the second halves of H and I.
pub fn sheets() -> Vec<(&'static str, Vec<u8>)> {
    let first = track(1, 100, 100, 10, 0);
    let sheets = [
        ("A", vec![first, track(2, 200, 50, 0, 10)]),
        ("B", vec![first, track(2, 200, 50, 0, 5)]),
        ("C", vec![first, track(2, 200, 50, 0, 4)]),
        ("D", sheet_d()),
        ("E", sheet_e()),
        ("F", vec![first, track(2, 300, 0, 0, 10), wall(1, 250, 50, 350, 50)]),
        ("G", vec![first, track(2, 200, 100, 20, 0)]),
        ("H", vec![first, wall(1, 200, 100, 200, 300)]),
        ("H passed", vec![first, wall(1, 200, 101, 200, 300)]),
        ("I", vec![track(1, 4095, 5, 1, 0)]),
        ("I up", vec![track(1, 4095, 5, 0, 1)]),
        ("J", vec![track(1, 0, 0, 1, 1), wall(1, 0, 1, 2, 0)]),
        ("K", vec![]),
        ("facing", on_one_line(1)),
        ("back to back", on_one_line(-1)),
    ];
    sheets.map(|(name, commands)| (name, listing(commands))).to_vec()
}

/// The bytes of the sheet with that name.
pub fn sheet(name: &str) -> Vec<u8> {
    let found = sheets().into_iter().find(|(other, _)| *other == name);
    found.expect("a sheet of this name").1
}
