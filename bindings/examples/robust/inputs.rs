//! The made-up inputs: mostly small sheets on few lines, where equal times, meetings, wall ends and borders are common.

use reference::made_up::entering::{entering, entering_late};
use reference::made_up::{self, facing, halves, late, shapes, sides, BORDERS, COARSE, GROUNDS, TINY};
use reference::rng::Rng;
use reference::sheet::{listing, Command, Records, Track, Wall};

pub fn undamaged(rng: &mut Rng) -> Vec<u8> {
    if rng.one_in(2) {
        late_or_facing(rng)
    } else {
        at_once(rng)
    }
}

/// Tips that open later: on traces, on one line with others, together with them, at the edge; traces without length; causes of
/// different sides at one time; end points halfway between two 64ths; and tips that face each other.
fn late_or_facing(rng: &mut Rng) -> Vec<u8> {
    match rng.below(28) {
        0 if rng.one_in(50) => late::large(rng),
        0..=9 => rng.pick(&late::MAKERS)(rng),
        10 | 11 => rng.pick(&sides::MAKERS)(rng),
        12 | 13 => rng.pick(&shapes::MAKERS)(rng),
        14..=16 => entering_late(rng).sheet,
        17 => late::nearly_accepted(rng),
        18 => late::doubtful(rng),
        19 => late::provoked(rng),
        20..=22 => rng.pick(&halves::MAKERS)(rng),
        _ => rng.pick(&facing::MAKERS)(rng),
    }
}

/// All tracks by 01, but for some of the fullest sheets.
fn at_once(rng: &mut Rng) -> Vec<u8> {
    match rng.below(20) {
        0 if rng.one_in(50) => made_up::large(rng),
        1 if rng.one_in(50) => full(rng),
        0..=8 => small(rng),
        9 | 10 => entering(rng).sheet,
        11..=14 => wheel(rng),
        15 => made_up::accepted(rng),
        16 => made_up::nearly_accepted(rng),
        17 => made_up::doubtful(rng),
        _ => made_up::provoked(rng),
    }
}

/// A few tracks and walls, none at all now and then.
fn small(rng: &mut Rng) -> Vec<u8> {
    let ground = if rng.one_in(2) { rng.pick(&[TINY, BORDERS, COARSE]) } else { rng.pick(&GROUNDS) };
    let draws = rng.below(18);
    listing(ground.accepted(rng, draws))
}

/// Tips that come to one point at one time, or a little off, and walls that end there.
fn wheel(rng: &mut Rng) -> Vec<u8> {
    let centre = [rng.pick(&[64, 512, 1000, 2048, 4095]), rng.pick(&[64, 512, 1000, 2048, 4095])];
    let time = 1 + rng.below(8) as i32;
    let mut records = Records::default();
    let drawn = (0..rng.below(13)).map(|_| spoke(rng, centre, time));
    listing(drawn.filter(|command| records.admit(*command).is_ok()))
}

fn spoke(rng: &mut Rng, [x, y]: [u16; 2], time: i32) -> Command {
    let id = rng.below(300) as u16;
    if rng.one_in(6) {
        let far = |rng: &mut Rng| rng.below(4096) as u16;
        return Command::Wall(Wall { id, ax: x, ay: y, bx: far(rng), by: far(rng) });
    }
    let speed = |rng: &mut Rng| rng.below(17) as i8 - 8;
    let (vx, vy) = (speed(rng), speed(rng));
    let time = if rng.one_in(8) { time + 1 } else { time };
    // A start below 0 becomes a coordinate above 4095, which is refused.
    let back = |to: u16, speed: i8| (i32::from(to) - time * i32::from(speed)) as u16;
    Command::Track(Track { id, x: back(x, vx), y: back(y, vy), vx, vy, start_time: 0 })
}

/// 255 to 257 of each kind, in any order, none, some or all of the tracks with start times.
fn full(rng: &mut Rng) -> Vec<u8> {
    let late = rng.below(3);
    let any = |rng: &mut Rng, from: usize, count: usize| (from + rng.below(count)) as u16;
    let mut commands: Vec<Command> = Vec::new();
    for id in 0..any(rng, 255, 3) {
        let (y, vx, vy) = (any(rng, 0, 4000), any(rng, 0, 3) as i8 - 1, any(rng, 1, 63) as i8);
        let start_time = if rng.below(2) < late { any(rng, 1, 100) } else { 0 };
        commands.push(Track { id, x: 15 * id, y, vx, vy, start_time }.command());
    }
    for id in 0..any(rng, 255, 3) {
        commands.push(Command::Wall(Wall { id, ax: 15 * id, ay: 4000, bx: 15 * id + any(rng, 0, 200), by: 4001 }));
    }
    rng.shuffle(&mut commands);
    listing(commands)
}

/// A sheet that is not as it was made.
pub fn damaged(rng: &mut Rng) -> Vec<u8> {
    let sheet = undamaged(rng);
    let mut bytes = sheet.clone();
    while bytes == sheet {
        for _ in 0..=rng.below(3) {
            damage(rng, &mut bytes);
        }
    }
    bytes
}

/// Changes, swaps, puts in, takes out or appends bytes, or cuts the end off.
fn damage(rng: &mut Rng, bytes: &mut Vec<u8>) {
    let byte = if rng.one_in(2) { rng.below(5) as u8 } else { rng.draw() as u8 };
    let (place, other) = (rng.below(bytes.len() + 1), rng.below(bytes.len() + 1));
    match rng.below(10) {
        0 => bytes.truncate(place),
        1 => bytes.insert(place, byte),
        2 => bytes.extend((0..=rng.below(12)).map(|_| if rng.one_in(2) { byte } else { rng.draw() as u8 })),
        _ if place.max(other) == bytes.len() => bytes.push(byte),
        3 => drop(bytes.remove(place)),
        4 => bytes.swap(place, other),
        5 | 6 => bytes[place] ^= 1 << rng.below(8),
        _ => bytes[place] = byte,
    }
}
