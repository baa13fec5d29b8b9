//! Made-up sheets with start times: tips that open on the way of others, behind and ahead of others
//! on one line, together with others, on the edge; and refused ones.

use super::{damage, ground, provoking_command, Ground, Maker, BORDERS, WHOLE};
use crate::plane::Vector;
use crate::rng::Rng;
use crate::sheet::{listing, Command, Records, Track};

/// Most are early, so that tips of one sheet open while others run.
fn start_time(rng: &mut Rng) -> u16 {
    match rng.below(8) {
        0 => 0,
        1..=4 => rng.below(10) as u16,
        5 | 6 => rng.below(200) as u16,
        _ => rng.pick(&[255, 256, 4094, 4095]),
    }
}

/// A track by 03, two times in three, with a start time that may be 0; else the command as it is.
fn with_start_time(rng: &mut Rng, command: Command) -> Command {
    match command.as_track() {
        Some(track) if !rng.one_in(3) => Command::LateTrack(Track { start_time: start_time(rng), ..track }),
        _ => command,
    }
}

/// Commands that a sheet can hold together, as they are drawn.
#[derive(Default)]
pub(super) struct Kept {
    records: Records,
    listed: Vec<Command>,
}

impl Kept {
    pub(super) fn draw(&mut self, rng: &mut Rng, count: usize, mut make: impl FnMut(&mut Rng, &Records) -> Command) {
        for _ in 0..count {
            let command = make(rng, &self.records);
            if self.records.admit(command).is_ok() {
                self.listed.push(command);
            }
        }
    }

    /// In any order.
    pub(super) fn sheet(mut self, rng: &mut Rng) -> Vec<u8> {
        rng.shuffle(&mut self.listed);
        listing(self.listed)
    }
}

pub(super) fn drawn(rng: &mut Rng, ground: &Ground, count: usize) -> Kept {
    let mut kept = Kept::default();
    kept.draw(rng, count, |rng, _| {
        let command = ground.command(rng);
        with_start_time(rng, command)
    });
    kept
}

pub fn accepted(rng: &mut Rng) -> Vec<u8> {
    let (ground, draws) = (ground(rng), 1 + rng.below(16));
    listing(drawn(rng, &ground, draws).listed)
}

/// The track with another start; outside the sheet its coordinates are above 4095, which is refused.
fn starting(track: Track, start: Vector, start_time: i64) -> Command {
    let start_time = start_time.max(0) as u16;
    Command::LateTrack(Track { x: start.x as u16, y: start.y as u16, start_time, ..track })
}

/// A track that starts where one of the tracks is at a whole age, and opens before, just then, or later.
fn on_the_way(rng: &mut Rng, ground: &Ground, records: &Records) -> (Track, Command) {
    let new = ground.track(rng);
    if records.tracks.is_empty() {
        return (new, Command::Track(new));
    }
    let other = rng.pick(&records.tracks);
    let age = rng.below(6) as i64;
    let later = rng.pick(&[-2, -1, 0, 0, 0, 1, 1, 2, 9, 60]);
    let point = other.start() + other.speed() * age;
    (other, starting(new, point, i64::from(other.start_time) + age + later))
}

/// Tips that open on the way of others.
pub fn opening(rng: &mut Rng) -> Vec<u8> {
    let (ground, draws, more) = (ground(rng), 2 + rng.below(6), 1 + rng.below(6));
    let mut kept = drawn(rng, &ground, draws);
    kept.draw(rng, more, |rng, records| on_the_way(rng, &ground, records).1);
    kept.sheet(rng)
}

/// Tips that open on the way of others and go on along it, faster or slower, now and then the other way.
pub fn on_one_line(rng: &mut Rng) -> Vec<u8> {
    let (ground, draws, more) = (ground(rng), 1 + rng.below(4), 2 + rng.below(6));
    let mut kept = drawn(rng, &ground, draws);
    kept.draw(rng, more, |rng, records| {
        let (other, command) = on_the_way(rng, &ground, records);
        let factor = rng.pick(&[1, 1, 1, 2, 3, -1]);
        // A speed above 63 is refused, or it has become another one that may be.
        let speed = other.speed() * factor;
        let along = |track| Command::LateTrack(Track { vx: speed.x as i8, vy: speed.y as i8, ..track });
        command.as_track().map_or(command, along)
    });
    kept.sheet(rng)
}

/// Tips of different ages that come to one point at one time, and one or two a little later.
pub fn meeting(rng: &mut Rng) -> Vec<u8> {
    let (ground, draws, more) = (ground(rng), rng.below(4), 2 + rng.below(6));
    let (at, time) = (ground.track(rng).start(), rng.below(12) as i64);
    let mut kept = drawn(rng, &ground, draws);
    kept.draw(rng, more, |rng, _| {
        let new = ground.track(rng);
        let age = rng.below(time.min(6) as usize + 1) as i64;
        let later = i64::from(rng.one_in(5));
        starting(new, at - new.speed() * age, time - age + later)
    });
    kept.sheet(rng)
}

/// Tips on one side of the sheet, many of them going out, and others along it.
pub fn at_the_edge(rng: &mut Rng) -> Vec<u8> {
    let (edge, from, across) = (rng.pick(&[0, 4095]), rng.pick(&[0, 500, 4080]), rng.one_in(2));
    let count = 2 + rng.below(8);
    let mut kept = Kept::default();
    kept.draw(rng, count, |rng, _| {
        let (along, off) = (from + rng.below(16) as u16, rng.pick(&[0, 0, 0, 0, 5]));
        let (out, edge) = if edge == 0 { (-1, off) } else { (1, edge - off) };
        let (speed, out) = (rng.below(5) as i8 - 2, out * rng.pick(&[0, 0, 0, 1, 2, -1]));
        let (x, y, vx, vy) = if across { (along, edge, speed, out) } else { (edge, along, out, speed) };
        let command = Command::Track(Track { id: super::id(rng), x, y, vx, vy, start_time: 0 });
        with_start_time(rng, command)
    });
    kept.sheet(rng)
}

/// What makes accepted sheets.
pub const MAKERS: [Maker; 5] = [accepted, opening, on_one_line, meeting, at_the_edge];

/// A command that may be refused for its start time, or as one without it.
fn doubtful_command(rng: &mut Rng, ground: &Ground) -> Command {
    let command = ground.doubtful_command(rng);
    match command.as_track() {
        Some(track) if rng.one_in(3) => {
            let start_time = rng.pick(&[0, 4095, 4096, 4097, 8191, 32768, 65535]);
            Command::LateTrack(Track { start_time, ..track })
        }
        _ => with_start_time(rng, command),
    }
}

/// An accepted sheet with one doubtful command put in somewhere.
pub fn nearly_accepted(rng: &mut Rng) -> Vec<u8> {
    let (ground, draws) = (ground(rng), 1 + rng.below(10));
    let mut commands = drawn(rng, &ground, draws).listed;
    let place = rng.below(commands.len() + 1);
    commands.insert(place, doubtful_command(rng, &ground));
    listing(commands)
}

pub fn doubtful(rng: &mut Rng) -> Vec<u8> {
    let (ground, count) = (ground(rng), 1 + rng.below(6));
    listing((0..count).map(|_| doubtful_command(rng, &ground)))
}

/// An accepted sheet with a provoking command somewhere, at any start time.
pub fn provoked(rng: &mut Rng) -> Vec<u8> {
    let (ground, draws) = (ground(rng), 4 + rng.below(8));
    let Kept { records, mut listed } = drawn(rng, &ground, draws);
    if !records.tracks.is_empty() {
        let track = rng.pick(&records.tracks);
        let command = provoking_command(rng, &ground, &track);
        let place = rng.below(listed.len() + 1);
        listed.insert(place, with_start_time(rng, command));
    }
    listing(listed)
}

pub fn damaged(rng: &mut Rng) -> Vec<u8> {
    let sheet = accepted(rng);
    damage(rng, sheet)
}

/// Up to 256 of each kind.
pub fn large(rng: &mut Rng) -> Vec<u8> {
    let (ground, draws) = (rng.pick(&[WHOLE, WHOLE, BORDERS]), rng.pick(&[200, 600, 2000]));
    listing(drawn(rng, &ground, draws).listed)
}

/// All made-up sheets of one seed.
pub fn all(seed: u64) -> Vec<Vec<u8>> {
    let mut rng = Rng::new(seed);
    let mut sheets = Vec::new();
    let mut add = |count, make: fn(&mut Rng) -> Vec<u8>| {
        sheets.extend((0..count).map(|_| make(&mut rng)));
    };
    add(200, accepted);
    add(250, opening);
    add(250, on_one_line);
    add(250, meeting);
    add(150, at_the_edge);
    add(150, nearly_accepted);
    add(150, doubtful);
    add(150, provoked);
    add(200, damaged);
    add(3, large);
    sheets
}
