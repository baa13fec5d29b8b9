//! Refusals 4 to 7 at their limits.

use super::{track, tracks, wall, walls};
use crate::sheet::{listing, Command};

fn coordinates() -> Vec<Vec<u8>> {
    let in_each_place = |limit| {
        [
            track(1, limit, 9, 1, 0),
            track(1, 9, limit, 1, 0),
            wall(1, limit, 9, 8, 7),
            wall(1, 9, limit, 8, 7),
            wall(1, 8, 7, limit, 9),
            wall(1, 8, 7, 9, limit),
        ]
    };
    let limits = [0, 255, 256, 4094, 4095, 4096, 4097, 8191, 32767, 32768, 65535];
    limits.into_iter().flat_map(in_each_place).map(|command| listing([command])).collect()
}

fn speeds() -> Vec<Vec<u8>> {
    let parts = [-128, -127, -65, -64, -63, -62, -1, 0, 1, 62, 63, 64, 65, 127];
    let with_each = |vx| parts.map(|vy| listing([track(1, 5, 5, vx, vy)]));
    parts.into_iter().flat_map(with_each).collect()
}

fn equal_ends() -> Vec<Vec<u8>> {
    let walls = [
        wall(1, 0, 0, 0, 0),
        wall(1, 4095, 4095, 4095, 4095),
        wall(1, 3, 4, 3, 4),
        wall(1, 3, 4, 4, 3),
        wall(1, 3, 4, 3, 5),
        wall(1, 3, 4, 5, 4),
        wall(1, 3, 3, 4, 4),
        wall(1, 3, 4, 259, 4),
        wall(1, 3, 4, 3, 260),
    ];
    walls.map(|wall| listing([wall])).to_vec()
}

fn counts() -> Vec<Vec<u8>> {
    let alternating = tracks(256).into_iter().zip(walls(256));
    let alternating: Vec<Command> = alternating.flat_map(|(track, wall)| [track, wall]).collect();
    let one_more = |command| [alternating.clone(), vec![command]].concat();
    let sheets = [
        tracks(255),
        tracks(256),
        tracks(257),
        walls(255),
        walls(256),
        walls(257),
        [tracks(256), walls(256)].concat(),
        [walls(256), tracks(256)].concat(),
        [tracks(256), walls(257)].concat(),
        [walls(256), tracks(257)].concat(),
        alternating.iter().rev().copied().collect(),
        one_more(track(900, 1, 1, 1, 1)),
        one_more(wall(900, 1, 1, 2, 1)),
        alternating,
    ];
    sheets.map(listing).to_vec()
}

pub fn sheets() -> Vec<Vec<u8>> {
    [coordinates(), speeds(), equal_ends(), counts()].concat()
}
