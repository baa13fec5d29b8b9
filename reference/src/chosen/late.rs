//! Sheets with start times: the three of examples/, the limits and refusals of 03, and endings in
//! which a start time decides.

use super::{late, track, tracks, wall, walls};
use crate::sheet::{listing, Command, Track};

/// The sheets of examples/ with start times, by name.
pub fn examples() -> Vec<(&'static str, Vec<u8>)> {
    let opening = vec![
        late(1, 150, 100, 0, 10, 30),
        late(2, 250, 100, 0, 10, 30),
        track(3, 100, 100, 10, 0),
        track(4, 100, 150, 1, -1),
        wall(1, 200, 50, 200, 150),
        wall(2, 240, 150, 260, 150),
    ];
    let behind = vec![
        track(1, 100, 100, 10, 0),
        late(2, 200, 100, 20, 0, 5),
        track(3, 100, 200, 10, 0),
        late(4, 200, 200, 20, 0, 10),
        track(5, 100, 300, 10, 0),
        late(6, 200, 300, 20, 0, 15),
        wall(1, 400, 50, 400, 350),
    ];
    let late = vec![
        late(1, 0, 100, -10, 0, 20),
        track(2, 0, 300, 0, -5),
        track(3, 100, 200, 10, 0),
        late(4, 200, 150, 0, 10, 5),
    ];
    [("opening", opening), ("behind", behind), ("late", late)].map(|(name, sheet)| (name, listing(sheet))).to_vec()
}

/// The bytes of the example with that name.
pub fn example(name: &str) -> Vec<u8> {
    let found = examples().into_iter().find(|(other, _)| *other == name);
    found.expect("an example of this name").1
}

/// `tracks`, by 03 wherever `start_time` gives one.
pub fn tracks_starting(count: u16, start_time: impl Fn(u16) -> Option<u16>) -> Vec<Command> {
    let start = |(command, i): (Command, u16)| match (command.as_track(), start_time(i)) {
        (Some(track), Some(start_time)) => Command::LateTrack(Track { start_time, ..track }),
        _ => command,
    };
    tracks(count).into_iter().zip(0..).map(start).collect()
}

/// Every second by 03.
pub fn mixed(count: u16) -> Vec<Command> {
    tracks_starting(count, |i| (i % 2 == 1).then_some(i))
}

fn start_times() -> Vec<Vec<u8>> {
    let times = [0, 1, 255, 256, 4094, 4095, 4096, 4097, 8191, 32767, 32768, 65535];
    let alone = times.map(|time| listing([late(1, 5, 6, 7, -8, time)]));
    let after = times.map(|time| listing([track(1, 50, 60, 1, 0), wall(2, 1, 2, 3, 4), late(2, 5, 6, 7, -8, time)]));
    [alone, after].concat()
}

/// A sheet that begins with 03 cut anywhere; a byte that is no command beside 03; bytes after the end.
fn form() -> Vec<Vec<u8>> {
    let whole = listing([late(7, 40, 50, 3, -4, 600), track(8, 300, 20, -1, 0), late(9, 70, 80, 1, 1, 0)]);
    let cut = (0..=whole.len()).map(|length| whole[..length].to_vec());
    let unknown = [0, 11, 20, 31].map(|at| [&whole[..at], &[4], &whole[at..]].concat());
    let after = [[&whole[..], &[3]].concat(), [&whole[..], &[4]].concat(), vec![0, 3], vec![3], vec![4], vec![3, 0]];
    cut.chain(unknown).chain(after).collect()
}

/// 256 and 257 tracks by 01 and 03, in the longest sheets, and what may stand behind those.
fn counts() -> Vec<Vec<u8>> {
    let full = || tracks_starting(256, |i| Some(4095 - i));
    let longest = [full(), walls(256)].concat();
    let one_more = |command| listing([&longest[..], &[command]].concat());
    let unended = &listing(longest.clone())[..5632];
    let behind: [&[u8]; 5] = [&[], &[3], &[4], &[3, 0, 0, 0, 0, 0, 0, 0, 0, 0], &[1, 0, 0, 0, 0, 0, 0, 0]];
    let mut sheets = vec![
        listing(mixed(255)),
        listing(mixed(256)),
        listing(mixed(257)),
        listing([tracks(256), vec![late(900, 1, 1, 1, 1, 5)]].concat()),
        listing([full(), vec![track(900, 1, 1, 1, 1)]].concat()),
        listing([walls(256), full(), vec![late(900, 1, 1, 1, 1, 0)]].concat()),
        listing(longest.clone()),
        listing(longest.iter().rev().copied()),
        one_more(late(900, 1, 1, 1, 1, 4096)),
        one_more(wall(900, 1, 1, 2, 1)),
        [listing(longest.clone()), vec![0; 20]].concat(),
    ];
    sheets.extend(behind.map(|rest| [unended, rest].concat()));
    sheets
}

/// Pairs of which the later is refused, whatever the start times: 8, 9 and 10; and some that are not.
fn pairs() -> Vec<Vec<u8>> {
    let first = |time| late(1, 20, 20, 5, 0, time);
    let others = |time| {
        [
            late(1, 30, 31, 1, 1, time),
            late(2, 20, 20, 5, 0, time),
            late(2, 20, 20, -5, 0, time),
            late(2, 90, 20, -1, 0, time),
            late(2, 90, 20, 1, 0, time),
            late(2, 10, 20, -1, 0, time),
            wall(1, 10, 10, 30, 30),
            wall(1, 10, 20, 30, 20),
            wall(1, 21, 20, 30, 20),
        ]
    };
    let mut sheets = Vec::new();
    for (one, other) in [(0, 0), (0, 7), (7, 0), (7, 7), (4095, 3)] {
        for second in others(other) {
            sheets.extend([listing([first(one), second]), listing([second, first(one)])]);
            sheets.push(listing([track(1, 20, 20, 5, 0), second]));
        }
    }
    sheets
}

/// A start time above 4095 with another rule broken: the order of SHEETS 3.4.
fn together() -> Vec<Vec<u8>> {
    let before = [track(1, 20, 20, 5, 0), wall(1, 30, 30, 30, 50), late(2, 40, 41, 0, 1, 9)];
    let faulty = [
        late(900, 4096, 40, 1, 0, 4096),
        late(900, 50, 60, 64, 0, 4096),
        late(900, 50, 60, 0, 0, 65535),
        late(1, 50, 60, 1, 0, 4096),
        late(2, 50, 60, 1, 0, 4096),
        late(900, 20, 20, 1, 0, 4096),
        late(900, 30, 40, 1, 0, 4096),
        late(900, 90, 20, -1, 0, 4096),
        late(2, 40, 41, 1, 1, 9),
        late(2, 50, 60, 64, 0, 9),
        late(900, 30, 40, 0, 0, 9),
    ];
    let with = |last| listing([&before[..], &[last]].concat());
    let too_many = |last| listing([mixed(256), vec![last]].concat());
    faulty.iter().map(|last| with(*last)).chain(faulty.iter().map(|last| too_many(*last))).collect()
}

/// Two and three tips on one line: the one in front opens before, as and after the one behind comes.
fn on_one_line() -> Vec<Vec<Command>> {
    let mut sheets = Vec::new();
    for time in [0, 3, 9, 10, 11, 30] {
        let front = late(2, 200, 100, 3, 0, time);
        sheets.extend([
            vec![track(1, 100, 100, 10, 0), front],
            vec![late(3, 100, 100, 10, 0, 1), front],
            vec![late(3, 100, 100, 10, 0, 20), front],
            vec![track(1, 100, 100, 10, 0), front, wall(1, 150, 90, 150, 110)],
            vec![track(1, 100, 100, 10, 0), front, wall(1, 210, 90, 210, 110)],
            vec![track(1, 100, 100, 10, 0), front, late(5, 150, 100, 20, 0, 4), late(4, 180, 100, 1, 0, 5)],
            vec![track(1, 100, 100, 10, 0), front, track(4, 200, 0, 0, 10)],
            vec![track(1, 100, 100, 10, 0), front, late(0, 150, 50, 0, 10, 5)],
            vec![late(2, 100, 200, 0, -10, time), late(1, 100, 100, 0, -5, 10)],
            vec![late(2, 100, 100, 3, 3, time), late(1, 130, 130, 2, 2, 10)],
            vec![late(2, 100, 100, 7, 0, time), late(1, 130, 100, 2, 0, 10)],
        ]);
    }
    sheets
}

/// A tip opens at a point of another's way: before, as and after that one comes; where it ends, and beyond.
fn on_traces() -> Vec<Vec<Command>> {
    let right = track(3, 100, 100, 10, 0);
    let stop = wall(1, 200, 50, 200, 150);
    let ways = [(0, 10), (0, -10), (3, 2), (-3, 2), (63, -62)];
    let mut sheets = Vec::new();
    for (vx, vy) in ways {
        for time in [0, 4, 5, 6, 30, 4095] {
            sheets.push(vec![right, stop, late(1, 150, 100, vx, vy, time), track(4, 100, 150, 1, -1)]);
        }
        // Beyond the end, and one unit before it.
        sheets.push(vec![right, stop, late(1, 250, 100, vx, vy, 30)]);
        sheets.push(vec![right, stop, late(1, 201, 100, vx, vy, 10)]);
        sheets.push(vec![right, stop, late(1, 199, 100, vx, vy, 10)]);
    }
    // Where another trace ends on a trace, where it meets a tip, and where two cross that have both passed.
    let up = |speed| track(2, 150, 50, 0, speed);
    sheets.extend([5, 9, 10, 11].map(|speed| vec![right, up(speed), late(1, 150, 100, 1, 1, 20)]));
    sheets.extend([5, 9, 10, 11].map(|speed| vec![right, up(speed), late(7, 150, 100, 1, 1, 6)]));
    sheets.extend([5, 9, 10, 11].map(|speed| vec![right, up(speed), late(0, 200, 150, -1, -1, 50)]));
    sheets
}

/// Crossings at equal times and not, of tips of different ages; a tip that ended as it opened stops others.
fn crossings() -> Vec<Vec<Command>> {
    let right = track(3, 100, 200, 10, 0);
    let up = |id, time| late(id, 200, 150, 0, 10, time);
    let mut sheets = Vec::new();
    for time in 0..=12 {
        sheets.extend([
            vec![right, up(4, time)],
            vec![late(3, 100, 200, 10, 0, 4), up(1, time)],
            vec![right, up(4, time), late(2, 250, 150, -10, 10, 5)],
            vec![right, up(4, time), wall(1, 150, 190, 150, 210)],
            vec![right, up(4, time), wall(1, 190, 210, 210, 190)],
            vec![late(3, 100, 200, 7, 0, time), late(1, 200, 150, 0, 3, 2)],
        ]);
    }
    // 1 opens at 30 on the trace of 5 and has only its start. Another comes there at 50, 10 or 5.
    let (old, opens) = (track(5, 0, 100, 50, 0), late(1, 150, 100, 7, 9, 30));
    sheets.extend([[1, -1], [5, -5], [10, -10]].map(|[vx, vy]| vec![old, opens, track(2, 100, 150, vx, vy)]));
    sheets.extend([[1, -1], [5, -5], [10, -10]].map(|[vx, vy]| vec![old, opens, track(9, 100, 150, vx, vy)]));
    sheets
}

/// Late tips on the edge and in the corners going out, along and in; others that run into their starts.
fn at_the_edge() -> Vec<Vec<Command>> {
    let ways = [(1, 0), (1, 1), (0, 1), (-1, 1), (-1, 0), (-1, -1), (0, -1), (1, -1)];
    let starts = [(0, 0), (4095, 0), (0, 4095), (4095, 4095), (0, 100), (100, 0), (4095, 100), (100, 4095)];
    let from = |(x, y)| ways.map(|(vx, vy)| vec![late(1, x, y, vx, vy, 20)]);
    let mut sheets: Vec<_> = starts.into_iter().flat_map(from).collect();
    for time in [0, 19, 20, 21, 40, 4095] {
        let out = late(1, 0, 100, -10, 0, time);
        sheets.extend([
            vec![out, track(2, 0, 300, 0, -10)],
            vec![out, track(2, 0, 300, 0, -10), track(0, 50, 50, -1, 1)],
            vec![out, track(2, 200, 100, -10, 0)],
            vec![out, track(2, 200, 300, -10, -10), track(3, 200, 0, -10, 5)],
            vec![late(1, 4090, 7, 5, 0, time), late(2, 4095, 27, 0, -1, 0)],
        ]);
    }
    sheets
}

/// Starts on borders and corners of cells; cells entered in another order than the ages say.
fn in_cells() -> Vec<Vec<Command>> {
    let ways = [(1, 0), (1, 1), (0, 1), (-1, 1), (-1, 0), (-1, -1), (0, -1), (1, -1)];
    let from_corner = ways.map(|(vx, vy)| vec![late(1, 2048, 2048, vx, vy, 77), track(2, 2000, 2040, 4, 0)]);
    let enters = |id, y, away: u16, time| late(id, 1024 - 16 * away, y, 16, 0, time);
    let falls = |id, y, away: u16, time| late(id, 2048 + 16 * away, y, -16, 0, time);
    let ended_at_once = vec![track(1, 900, 512, 8, 0), late(2, 1024, 512, -8, -8, 20), late(3, 1024, 600, -8, 0, 20)];
    let mut sheets = vec![
        vec![
            enters(1, 100, 1, 20),
            enters(2, 200, 9, 0),
            enters(3, 300, 5, 4),
            falls(4, 400, 3, 6),
            falls(5, 500, 0, 9),
        ],
        vec![
            enters(5, 100, 1, 20),
            enters(4, 200, 9, 0),
            falls(3, 300, 5, 4),
            falls(2, 400, 3, 6),
            falls(1, 500, 0, 9),
        ],
        ended_at_once,
    ];
    sheets.extend(from_corner);
    sheets
}

/// Accepted sheets in which a start time decides.
pub fn endings() -> Vec<Vec<u8>> {
    let endings = [on_one_line(), on_traces(), crossings(), at_the_edge(), in_cells()].concat();
    endings.into_iter().map(listing).collect()
}

pub fn sheets() -> Vec<Vec<u8>> {
    let examples = examples().into_iter().map(|(_, sheet)| sheet);
    let refused = [start_times(), form(), counts(), pairs(), together()].concat();
    examples.chain(refused).chain(endings()).collect()
}
