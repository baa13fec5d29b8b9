//! Refusals 1 to 3: unknown commands, sheets cut short, bytes after 00. Also orders and ids.

use super::{track, tracks, wall, walls};
use crate::sheet::{listing, Command};

/// Tracks and walls in turn; a track and a wall share id 7, ids fall, 0 and 65535 are used.
fn interleaved() -> Vec<Command> {
    vec![
        track(65535, 40, 50, 3, -4),
        wall(7, 10, 10, 20, 30),
        track(7, 300, 20, -1, 0),
        wall(65535, 4095, 0, 0, 4095),
        wall(0, 5, 4000, 5, 4001),
        track(0, 4000, 4000, 63, -63),
    ]
}

fn cut_short() -> Vec<Vec<u8>> {
    let whole = listing(interleaved());
    (0..whole.len()).map(|length| whole[..length].to_vec()).collect()
}

fn after_end() -> Vec<Vec<u8>> {
    let tails: [&[u8]; 5] = [&[0], &[1], &[4], &[255, 0], &[1, 9, 0, 1, 0, 1, 0, 1, 1, 0]];
    let wholes = [listing([]), listing(interleaved()), listing(tracks(1))];
    let with_tails = |whole: &Vec<u8>| tails.map(|tail| [whole, tail].concat());
    wholes.iter().flat_map(with_tails).collect()
}

fn unknown_commands() -> Vec<Vec<u8>> {
    let before = listing([track(1, 2, 3, 4, 5), wall(1, 2, 3, 4, 5)]);
    let before = &before[..before.len() - 1];
    let of = |byte| [[&[byte], before].concat(), [before, &[byte]].concat()];
    (4..=255).flat_map(of).collect()
}

/// Inputs longer than any accepted sheet, and refused for what comes early or late in them.
fn long() -> Vec<Vec<u8>> {
    let full = listing([tracks(256), walls(256)].concat());
    let mut unended = full.clone();
    unended.pop();
    vec![
        [full, vec![0; 1000]].concat(),
        [unended.clone(), vec![4; 1000]].concat(),
        [unended, vec![1; 1000]].concat(),
        vec![0; 6000],
    ]
}

fn ids() -> Vec<Vec<u8>> {
    let used_twice = |id| {
        [
            listing([track(id, 1, 1, 1, 0), wall(id, 5, 5, 6, 6)]),
            listing([track(id, 1, 1, 1, 0), track(id, 2, 2, 1, 0)]),
            listing([wall(id, 5, 5, 6, 6), wall(id, 7, 7, 8, 8)]),
        ]
    };
    [0, 1, 255, 256, 32767, 32768, 65535].into_iter().flat_map(used_twice).collect()
}

fn ids_alike_in_one_byte() -> Vec<Vec<u8>> {
    vec![
        listing([track(0x0102, 1, 1, 1, 0), track(0x0202, 2, 2, 1, 0)]),
        listing([track(0x0102, 1, 1, 1, 0), track(0x0101, 2, 2, 1, 0)]),
        listing([wall(0x0102, 1, 1, 1, 0), wall(0x0202, 2, 2, 1, 0)]),
        listing([wall(0x0102, 1, 1, 1, 0), wall(0x0101, 2, 2, 1, 0)]),
    ]
}

pub fn sheets() -> Vec<Vec<u8>> {
    let mut sheets = vec![vec![], listing([]), listing(interleaved())];
    sheets.extend(cut_short());
    sheets.extend(after_end());
    sheets.extend(unknown_commands());
    sheets.extend(long());
    sheets.extend(ids());
    sheets.extend(ids_alike_in_one_byte());
    sheets
}
