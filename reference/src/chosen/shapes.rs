//! Sheets for the shapefiles (SHEETS 12): traces that are null shapes or nearly so, boxes whose sides come from starts
//! or from ends, files without points, full files.

use super::{late, track, wall, walls};
use crate::sheet::{listing, Command};

const WAYS: [(i8, i8); 8] = [(1, 0), (1, 1), (0, 1), (-1, 1), (-1, 0), (-1, -1), (0, -1), (1, -1)];

/// Corners and sides of the sheet, each with a way out.
const OUTWARD: [(u16, u16, i8, i8); 12] = [
    (0, 0, -1, -1),
    (4095, 0, 63, -63),
    (4095, 4095, 1, 2),
    (0, 4095, -2, 1),
    (0, 70, -1, 0),
    (70, 0, 0, -1),
    (4095, 70, 1, 0),
    (70, 4095, 0, 1),
    (0, 2000, -3, 4),
    (2000, 0, 4, -3),
    (4095, 2000, 63, 1),
    (2000, 4095, -1, 63),
];

fn without_tracks() -> Vec<Vec<Command>> {
    vec![vec![], walls(1), walls(3), walls(256)]
}

/// Tips that leave over the border as they open: each alone, all at 0, and one after the other by falling ids.
fn all_null() -> Vec<Vec<Command>> {
    let at_zero = || OUTWARD.into_iter().zip(1..).map(|((x, y, vx, vy), id)| track(id, x, y, vx, vy));
    let in_turn = OUTWARD.into_iter().zip(1..).map(|((x, y, vx, vy), id)| late(id, x, y, vx, vy, 100 - 7 * id));
    let alone = at_zero().map(|tip| vec![tip]);
    alone.chain([at_zero().collect(), in_turn.collect(), at_zero().chain(walls(2)).collect()]).collect()
}

/// Two traces that end at 10 and 20, and one or two null shapes beside them: before, between, behind, and at equal
/// times, when ids decide. They stand outside the traces' box, on each side of it.
fn null_among_others() -> Vec<Vec<Command>> {
    let traces = [track(4, 100, 100, 10, 0), track(6, 100, 300, 10, 0), wall(1, 200, 90, 200, 110)];
    let traces = [&traces[..], &[wall(2, 300, 290, 300, 310)]].concat();
    let with = |more: &[Command]| [&traces[..], more].concat();
    let mut sheets = Vec::new();
    for time in [0, 9, 10, 11, 20, 21, 4095] {
        sheets.extend([1, 5, 9].map(|id| with(&[late(id, 4095, 4095, 1, 1, time)])));
        sheets.push(with(&[late(3, 0, 0, -1, -1, time), late(2, 4095, 0, 1, 0, 10)]));
        sheets.push(with(&[late(65535, 0, 4095, -1, 0, time), late(0, 0, 4094, -1, 0, time)]));
    }
    sheets
}

/// Null shapes inside the sheet: tips that open on traces, or just as another comes; others that come to their starts.
fn opening_on_traces() -> Vec<Vec<Command>> {
    let old = track(5, 100, 100, 10, 0);
    let opens = |id, x, vx, vy, time| late(id, x, 100, vx, vy, time);
    let on_all = (1..=40).map(|id| opens(100 + id, 100 + 20 * id, 1 - (id % 3) as i8, 1, 200 - id));
    vec![
        vec![old, opens(3, 150, 0, 1, 6)],
        vec![old, opens(3, 150, 0, 1, 5)],
        vec![old, opens(3, 150, 0, 1, 4)],
        vec![old, opens(7, 150, -1, -1, 4095)],
        vec![old, opens(3, 150, 1, 0, 6), opens(2, 160, 1, 0, 7), opens(1, 170, 1, 0, 8)],
        vec![old, opens(3, 150, 0, 1, 6), track(2, 100, 150, 1, -1), late(1, 120, 130, 9, 9, 60)],
        vec![old, wall(1, 160, 50, 160, 150), opens(3, 150, 0, 1, 30), opens(4, 170, 0, 1, 30)],
        [old].into_iter().chain(on_all).collect(),
    ]
}

/// A wall that rises by 1 over so many units. A tip starts so far along it, below it and going up, or at the other end
/// above it and going down. And the same with x and y exchanged.
fn beside_wall(length: u16, along: u16) -> [Vec<Command>; 4] {
    let (low, high) = (1000, 1000 + length);
    let (flat, steep) = (wall(1, low, low, high, low + 1), wall(1, low, low, low + 1, high));
    [
        vec![flat, track(1, low + along, low, 0, 1)],
        vec![flat, track(1, high - along, low + 1, 0, -1)],
        vec![steep, track(1, low, low + along, 1, 0)],
        vec![steep, track(1, low + 1, high - along, -1, 0)],
    ]
}

/// Traces about as long as a 64th or half of one: up to a half, the rounded end is the start again.
fn about_a_64th() -> Vec<Vec<Command>> {
    let lengths = [(63, 1), (64, 1), (65, 1), (127, 2), (128, 2), (129, 2), (128, 1), (3000, 46), (3000, 47)];
    let mut sheets: Vec<_> = lengths.into_iter().flat_map(|(length, along)| beside_wall(length, along)).collect();
    let flat = wall(1, 1000, 1000, 1128, 1001);
    let below = [(1, 1), (-1, 1), (63, 63), (-63, 63), (1, 63), (63, 1)];
    sheets.extend(below.map(|(vx, vy)| vec![flat, track(1, 1001, 1000, vx, vy)]));
    let above = [(1, -1), (-1, -1), (63, -63), (-63, -63), (1, -63), (63, -1)];
    sheets.extend(above.map(|(vx, vy)| vec![flat, track(1, 1127, 1001, vx, vy)]));
    sheets.push((1..=63).map(|x| track(90 - x, x, 0, 0, 1)).chain([wall(1, 0, 0, 4095, 1)]).collect());
    sheets.push((1..=66).map(|x| track(90 - x, x, 0, 0, 1)).chain([wall(1, 0, 0, 4095, 1)]).collect());
    sheets.extend(beside_traces());
    sheets
}

/// Late tips that start close below and above an old trace: the first two move little more than half a 64th each way.
fn beside_traces() -> Vec<Vec<Command>> {
    let old = track(2, 1000, 1000, 63, -62);
    let ways = [(63, 63), (62, 63), (1, 63), (63, 1), (0, 1), (1, 0)];
    let under = ways.map(|(vx, vy)| vec![old, late(1, 1001, 999, vx, vy, 1)]);
    let over = ways.map(|(vx, vy)| vec![old, late(1, 1062, 939, -vx, -vy, 9)]);
    [under, over].concat()
}

/// One trace each way; four that give the box a side each, by their ends or by their starts; around the sheet.
fn boxes() -> Vec<Vec<Command>> {
    let mut sheets = Vec::new();
    for (vx, vy) in WAYS {
        sheets.push(vec![track(1, 2000, 1000, vx, vy)]);
        sheets.push(vec![track(1, 2000, 1000, 3 * vx, 3 * vy), wall(1, 1900, 900, 2100, 901), wall(2, 1, 1, 2, 4095)]);
        sheets.push(vec![track(1, 2000, 1000, 7 * vx, 5 * vy), track(0, 2100, 1600, 11 * vy, 13 * vx)]);
    }
    let out = [track(1, 2000, 1900, 7, 0), track(2, 1900, 2000, 0, 9), track(3, 1800, 1900, -8, 0)];
    let bent = [track(1, 2000, 1900, 7, 3), track(2, 1900, 2000, -3, 9), track(3, 1800, 1900, -8, -1)];
    sheets.extend([out, bent].map(|three| [&three[..], &[track(4, 1900, 1800, 1, -6)]].concat()));
    let inward = [track(1, 0, 50, 5, 1), track(2, 4095, 60, -5, 1), track(3, 70, 0, 1, 5), track(4, 80, 4095, 1, -5)];
    let stops =
        [wall(1, 10, 40, 10, 70), wall(2, 4080, 40, 4080, 90), wall(3, 60, 20, 90, 20), wall(4, 60, 4079, 99, 4079)];
    sheets.push([inward, stops].concat());
    sheets.extend([1, 63].map(|v| vec![track(1, 0, 0, v, v), track(2, 4095, 0, -v, v)]));
    sheets.extend([1, 63].map(|v| vec![track(1, 4095, 4095, -v, -v), track(2, 0, 4095, v, -v)]));
    let around = [(0, 0, 1, 0), (4095, 0, 0, 1), (4095, 4095, -1, 0), (0, 4095, 0, -1)];
    sheets.push(around.into_iter().zip(1..).map(|((x, y, vx, vy), id)| track(id, x, y, vx, vy)).collect());
    sheets
}

/// 256 tips: their ids against the roll's order, all null, all at one time, null by turns, on one old trace.
fn full() -> Vec<Vec<Command>> {
    let tips = |of: fn(u16) -> Command| (0..256).map(of).collect::<Vec<_>>();
    vec![
        tips(|i| track(i, 16 * i, 10 + 15 * i, 1, 0)),
        tips(|i| track(257 * i, 4095 - 16 * i, 10 + 15 * i, -1, 0)),
        tips(|i| track(255 - i, 0, 16 * i, -1, 0)),
        tips(|i| track(i * 77 % 256, 0, 16 * i, 63, 0)),
        tips(|i| late(i, 4095, 16 * i, 1, 0, 3000 - 3 * i)),
        tips(|i| late(i, 16 * i, 4095, 0, if i % 2 == 0 { 1 } else { -63 }, 4095 - 16 * i)),
        tips(|i| if i == 0 { track(256, 0, 9, 63, 1) } else { late(256 - i, 14 * i, 16 * i, -1, 0, 200) }),
        tips(|i| if i == 0 { track(9, 7, 100, 8, 0) } else { late(700 - i, 7 + 8 * i, 100, 0, 5, 300) }),
    ]
}

/// A few in which the roll's order is not that of the ids, nor the listed one.
fn orders() -> Vec<Vec<Command>> {
    let tip = |id, x, y| track(id, x, y, 10, 0);
    vec![
        vec![tip(1, 100, 100), tip(2, 500, 200), tip(3, 900, 300), tip(4, 1300, 400)],
        vec![tip(3, 100, 100), tip(1, 500, 200), tip(4, 900, 300), tip(2, 1300, 400)],
        vec![tip(256, 100, 100), tip(255, 100, 200), tip(1, 100, 300), tip(65535, 100, 400), tip(0, 100, 500)],
        vec![late(4, 100, 100, 10, 0, 5), tip(5, 50, 200), late(0, 90, 300, 10, 0, 4), late(2, 4095, 9, 5, 0, 404)],
    ]
}

pub fn sheets() -> Vec<Vec<u8>> {
    let null = [without_tracks(), all_null(), null_among_others(), opening_on_traces()].concat();
    let sheets = [null, about_a_64th(), boxes(), orders(), full()].concat();
    sheets.into_iter().map(listing).collect()
}
