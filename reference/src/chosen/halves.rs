//! Sheets with end points halfway between two 64ths, or close to it (SHEETS 5.4). Only walls and traces end tips
//! halfway: what meets or leaves does so at a time whose denominator is at most 126, and half a 64th needs a multiple
//! of 128.

use super::{late, track, wall};
use crate::plane::Vector;
use crate::sheet::{listing, Command, Track, Wall};
use crate::turn::Turn;

/// The two sheets of document 02, by name.
pub fn document() -> [(&'static str, Vec<u8>); 2] {
    let slanted = wall(1, 0, 0, 1, 128);
    [("three halves", listing([track(1, 0, 3, 1, 0), slanted])), ("one half", listing([track(1, 0, 1, 1, 0), slanted]))]
}

/// The sheet `halves` of examples/. 2 and 3 end at walls; 1 ends on the trace of 2, halfway in x and in y.
pub fn example() -> Vec<u8> {
    listing([
        track(1, 100, 100, 11, 5),
        track(2, 101, 100, 3, 13),
        track(3, 100, 101, 7, 13),
        wall(1, 101, 101, 102, 101),
        wall(2, 100, 102, 101, 102),
    ])
}

pub fn tip(id: u16, at: Vector, speed: Vector, start_time: u16) -> Command {
    Track { id, x: at.x as u16, y: at.y as u16, vx: speed.x as i8, vy: speed.y as i8, start_time }.command()
}

/// Coordinates outside the sheet are above 4095, which is refused.
pub fn wall_between(id: u16, a: Vector, b: Vector) -> Command {
    Command::Wall(Wall { id, ax: a.x as u16, ay: a.y as u16, bx: b.x as u16, by: b.y as u16 })
}

/// Tips from the left and from the right to a wall beside the border. At height k they end at x = k/length, the second
/// where the first has ended.
fn comb(length: u16, heights: impl Iterator<Item = u16> + Clone, opens: u16) -> Vec<Command> {
    let from_left = heights.clone().map(|k| track(k, 0, k, 1, 0));
    let from_right = heights.map(|k| late(5000 - k, 1, k, -1, 0, opens));
    from_left.chain(from_right).chain([wall(1, 0, 0, 1, length)]).collect()
}

/// Every odd number of halves.
fn all_halves() -> Vec<Vec<Command>> {
    vec![comb(128, (1..128).step_by(2), 0)]
}

/// The heights at which the ends are closest to a half, and next to these.
fn close_to_halves() -> Vec<Vec<Command>> {
    let lengths = [63, 65, 127, 129, 191, 193, 255, 257, 1023, 1025, 2047, 2049, 4093, 4095];
    let close = |length: u16| {
        let rest = move |k: u16| 64 * u32::from(k) % u32::from(length);
        let heights = (1..length).filter(move |k| (2 * rest(*k)).abs_diff(length.into()) <= 3);
        comb(length, heights, length % 3)
    };
    lengths.map(close).to_vec()
}

/// Long walls and fast tips, so that the denominators are 499,739 and 505,657: x of the first two and y of the last two
/// are as close to a half as these allow.
fn far() -> Vec<Vec<Command>> {
    let tips = |speed: (i8, i8), starts: [(u16, u16); 4]| {
        starts.into_iter().zip(1..).map(move |((x, y), id)| track(id, x, y, speed.0, speed.1))
    };
    let first = tips((63, 61), [(1865, 2082), (2124, 1934), (3212, 792), (777, 3224)]);
    let second = tips((63, 62), [(2856, 24), (52, 2875), (1021, 50), (60, 1051)]);
    vec![first.chain([wall(1, 0, 4043, 4052, 34)]).collect(), second.chain([wall(1, 4059, 0, 46, 4077)]).collect()]
}

/// Pairs of speeds whose cross product is an odd number of 128s. The first is that of tips, the second that of what ends
/// them.
const CROSSED: [((i64, i64), (i64, i64)); 8] = [
    ((11, 5), (3, 13)),
    ((1, 3), (-23, 59)),
    ((63, 1), (61, 3)),
    ((63, -61), (1, -3)),
    ((5, 63), (63, -51)),
    // Halves in y alone, and in x alone.
    ((2, 1), (-2, 63)),
    ((-62, 63), (54, 5)),
    ((1, 2), (63, -2)),
];

/// The start from which a tip of the first speed comes at the age of `own`/128 to where another one, of the second speed
/// and from (0, 0), is before the age of 1.
pub fn start_to_cross(speed: Vector, other: Vector, own: i64) -> Vector {
    let mut ways = (0..128).map(|age| other * age - speed * own);
    let way = ways.find(|way| way.x % 128 == 0 && way.y % 128 == 0).expect("a cross product of so many 128s");
    Vector { x: way.x / 128, y: way.y / 128 }
}

/// Tips at each odd number of 128ths before a wall; the same before a trace, as late ones.
fn crossed((speed, other): ((i64, i64), (i64, i64))) -> [Vec<Command>; 2] {
    let [speed, other] = [speed, other].map(|(x, y)| Vector { x, y });
    let at = Vector::new(1000, 3000);
    let tips = |opens| {
        let own = (1..128).step_by(2).zip(1..);
        own.map(move |(own, id)| tip(id, at + start_to_cross(speed, other, own), speed, opens))
    };
    [tips(0).chain([wall_between(1, at + other, at)]).collect(), tips(1).chain([tip(500, at, other, 0)]).collect()]
}

/// A speed, and the ends of a wall seen from the tip's start.
pub type Aim = ((i64, i64), (i64, i64), (i64, i64));

/// The ages at which these tips come to their walls are 1/127, 1/128 and 1/129, of the last 1/256.
pub const AIMS: [Aim; 9] = [
    ((1, 0), (0, -1), (1, 126)),
    ((1, 0), (0, -1), (1, 127)),
    ((1, 0), (0, -1), (1, 128)),
    ((1, 1), (-1, 1), (63, -62)),
    ((1, 1), (32, -31), (-33, 32)),
    ((1, 1), (-1, 1), (64, -63)),
    ((1, 3), (33, -4), (-8, 1)),
    ((3, 5), (1, 0), (-24, 1)),
    ((2, 1), (1, -63), (-1, 64)),
];

/// A tip and the wall at which it is aimed, `times` as far away, and if `opens` is given, another tip that faces it from
/// behind the wall.
pub fn aimed((speed, a, b): Aim, times: i64, at: Vector, ids: (u16, u16), opens: Option<u16>) -> Vec<Command> {
    let [speed, a, b] = [speed, a, b].map(|(x, y)| Vector { x, y });
    let facing = opens.map(|opens| tip(ids.1, at + speed * 40, -speed, opens));
    let wall = wall_between(ids.0, at + a * times, at + b * times);
    [Some(tip(ids.0, at, speed, 0)), facing, Some(wall)].into_iter().flatten().collect()
}

/// All aims on one sheet.
fn aimed_together(times: i64, opens: Option<u16>) -> Vec<Command> {
    let at = |number: u16| Vector::new(700 + 1200 * (number % 3), 700 + 1200 * (number / 3));
    let ids = |number| (10 + number, 40 - number);
    (0..).zip(AIMS).flat_map(|(number, aim)| aimed(aim, times, at(number), ids(number), opens)).collect()
}

/// Tips alone: each aim, and about half a 64th beside the border, from there and from the other side. Traces up to half a
/// 64th are null shapes.
fn alone() -> Vec<Vec<Command>> {
    let aimed = |aim| aimed(aim, 1, Vector::new(2048, 1024), (1, 2), None);
    let tips = [track(1, 0, 1, 1, 0), track(1, 1, 1, -1, 0)];
    let at_border = |length| tips.map(|tip| vec![tip, wall(1, 0, 0, 1, length)]);
    AIMS.into_iter().map(aimed).chain([127, 128, 129].into_iter().flat_map(at_border)).collect()
}

pub fn sheets() -> Vec<Vec<u8>> {
    let aimed = [(1, None), (1, Some(39)), (2, None), (3, Some(0))].map(|(times, opens)| aimed_together(times, opens));
    let every_way = [all_halves(), close_to_halves(), far(), aimed.to_vec(), alone()].concat();
    let turned = |turn: Turn| every_way.iter().map(move |sheet| listing(sheet.iter().map(|it| turn.command(*it))));
    let every_way = Turn::ALL.into_iter().flat_map(turned);
    let crossed = CROSSED.into_iter().flat_map(crossed).map(listing);
    document().into_iter().map(|(_, sheet)| sheet).chain([example()]).chain(every_way).chain(crossed).collect()
}
