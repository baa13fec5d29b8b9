//! Two or more rules broken by one command: the order of SHEETS 3.4.
//!
//! 9 comes with neither 4 nor 10: what was there first would itself have been refused. 4 does not
//! come with 10 for a track, since walls are inside the sheet. Some of the tracks face another, which
//! is no fault.

use super::{track, tracks, wall, walls};
use crate::sheet::{listing, Command};

/// Against `before_track`: id 1 used, start (20, 20) used, (30, 40) and (60, 20) on walls; from (90, 20) a tip may face.
fn before_track() -> Vec<Command> {
    vec![track(1, 20, 20, 5, 0), wall(1, 30, 30, 30, 50), wall(2, 60, 20, 60, 21)]
}

/// A command, and the rules that it breaks.
pub type Faulty = (&'static [u8], Command);

/// What is faulty after `before_track`.
fn faulty_tracks() -> Vec<Faulty> {
    vec![
        (&[4, 5], track(900, 4096, 40, 64, 0)),
        (&[4, 8], track(1, 4096, 40, 1, 0)),
        (&[4], track(900, 5000, 20, -1, 0)),
        (&[4, 5, 8], track(1, 5000, 20, -64, 0)),
        (&[5, 8], track(1, 10, 10, 0, 0)),
        (&[5, 9], track(900, 20, 20, 0, -64)),
        (&[5, 10], track(900, 30, 40, 0, 0)),
        (&[5], track(900, 90, 20, -64, 0)),
        (&[5, 8, 9], track(1, 20, 20, 0, 64)),
        (&[5, 8, 10], track(1, 60, 20, -64, 0)),
        (&[8, 9], track(1, 20, 20, 1, 1)),
        (&[8, 10], track(1, 30, 40, 1, 1)),
        (&[8], track(1, 90, 20, -1, 0)),
        (&[8, 10], track(1, 60, 20, -1, 0)),
        (&[10], track(900, 60, 20, -1, 0)),
        (&[9], track(900, 20, 20, -5, 0)),
        (&[10], track(900, 30, 40, 1, 1)),
    ]
}

/// Against `before_wall`: id 1 used, starts at (20, 20) and (30, 40).
fn before_wall() -> Vec<Command> {
    vec![track(1, 20, 20, 5, 0), track(2, 30, 40, 5, 0), wall(1, 60, 60, 70, 70)]
}

/// What is faulty after `before_wall`.
fn faulty_walls() -> Vec<Faulty> {
    vec![
        (&[4, 6], wall(900, 4096, 5, 4096, 5)),
        (&[4, 8], wall(1, 4096, 5, 4, 5)),
        (&[4, 10], wall(900, 0, 20, 4096, 20)),
        (&[4, 6, 8], wall(1, 5000, 20, 5000, 20)),
        (&[6, 8], wall(1, 5, 5, 5, 5)),
        (&[6, 10], wall(900, 20, 20, 20, 20)),
        (&[6, 8, 10], wall(1, 30, 40, 30, 40)),
        (&[8, 10], wall(1, 10, 0, 30, 40)),
        (&[10], wall(900, 10, 0, 30, 40)),
    ]
}

/// The commands before, and each faulty command that may come next.
fn ends_faulty(before: Vec<Command>, faulty: Vec<Faulty>) -> Vec<(&'static [u8], Vec<u8>)> {
    let with = |last| listing([&before[..], &[last]].concat());
    faulty.into_iter().map(|(rules, last)| (rules, with(last))).collect()
}

/// Sheets whose last command breaks the rules beside it, and which are good up to there.
pub fn at_one_command() -> Vec<(&'static [u8], Vec<u8>)> {
    let mut sheets = ends_faulty(before_track(), faulty_tracks());
    sheets.extend(ends_faulty(before_wall(), faulty_walls()));
    sheets
}

/// As `at_one_command`, with a last command that is the 257th of its kind as well.
pub fn one_too_many() -> Vec<(&'static [u8], Vec<u8>)> {
    let full_of_tracks = before_track().into_iter().chain(tracks(257).into_iter().skip(2));
    let full_of_walls = before_wall().into_iter().chain(walls(257).into_iter().skip(2));
    let mut sheets = ends_faulty(full_of_tracks.collect(), faulty_tracks());
    sheets.extend(ends_faulty(full_of_walls.collect(), faulty_walls()));
    sheets
}

/// The last command is cut short, and what is there of it breaks other rules.
pub fn cut_short() -> Vec<Vec<u8>> {
    let whole = at_one_command().into_iter().chain(one_too_many().into_iter().take(2));
    let cut = |bytes: Vec<u8>| [2, 3].map(|less| bytes[..bytes.len() - less].to_vec());
    whole.flat_map(|(_, bytes)| cut(bytes)).collect()
}

/// The sheet breaks two rules at two commands: the first of them is refused, whatever its number.
fn at_two_commands() -> Vec<Vec<u8>> {
    let before = before_track();
    let faults = [
        track(3, 4096, 40, 1, 0),
        track(4, 41, 40, 64, 0),
        wall(5, 7, 7, 7, 7),
        track(1, 11, 10, 1, 0),
        track(6, 20, 20, 1, 0),
        track(7, 30, 40, 1, 0),
        // No fault: its tip faces another.
        track(8, 90, 20, -1, 0),
    ];
    let pair = |first, second| listing([&before[..], &[first, second]].concat());
    let with_each = |first| faults.map(|second| pair(first, second));
    let mut sheets: Vec<_> = faults.into_iter().flat_map(with_each).collect();
    let unended = |mut bytes: Vec<u8>, tail: &[u8]| {
        bytes.pop();
        bytes.extend(tail);
        bytes
    };
    for fault in faults {
        let bytes = listing([&before[..], &[fault]].concat());
        sheets.push([&bytes[..], &[9]].concat());
        sheets.push(unended(bytes.clone(), &[4]));
        sheets.push(unended(bytes, &[]));
    }
    sheets
}

pub fn sheets() -> Vec<Vec<u8>> {
    let named = at_one_command().into_iter().chain(one_too_many());
    let named = named.map(|(_, sheet)| sheet);
    named.chain(cut_short()).chain(at_two_commands()).collect()
}
