//! Made-up sheets from a seed: accepted ones, nearly accepted ones, and damaged ones.

pub mod entering;
pub mod facing;
pub mod halves;
pub mod handed_in;
pub mod keys;
pub mod late;
pub mod names;
pub mod shapes;
pub mod sides;

use crate::rng::Rng;
use crate::sheet::{listing, read, whole_commands, Command, Records, Track, Wall, MAX_COORDINATE};

/// What makes a sheet.
pub type Maker = fn(&mut Rng) -> Vec<u8>;

/// Where starts and wall ends are put: `count` lines each way, `step` apart. Few lines make
/// meetings, facing tips and refusals 8 to 10 frequent.
#[derive(Clone, Copy, Debug)]
pub struct Ground {
    origin: u16,
    step: u16,
    count: u16,
    fastest: i8,
}

pub const TINY: Ground = Ground { origin: 0, step: 1, count: 6, fastest: 2 };
pub const SMALL: Ground = Ground { origin: 90, step: 1, count: 20, fastest: 3 };
pub const TOP: Ground = Ground { origin: 4084, step: 1, count: 12, fastest: 4 };
/// All lines but the last are cell borders of the finest grid.
pub const BORDERS: Ground = Ground { origin: 0, step: 128, count: 33, fastest: 8 };
pub const COARSE: Ground = Ground { origin: 0, step: 512, count: 9, fastest: 2 };
pub const WHOLE: Ground = Ground { origin: 0, step: 1, count: 4096, fastest: 63 };
pub const GROUNDS: [Ground; 6] = [TINY, SMALL, TOP, BORDERS, COARSE, WHOLE];

impl Ground {
    fn coordinate(&self, rng: &mut Rng) -> u16 {
        let line = rng.below(self.count.into()) as u16;
        (self.origin + line * self.step).min(MAX_COORDINATE)
    }

    fn speed(&self, rng: &mut Rng) -> i8 {
        let fastest = usize::from(self.fastest.unsigned_abs());
        rng.below(2 * fastest + 1) as i8 - self.fastest
    }

    fn track(&self, rng: &mut Rng) -> Track {
        Track {
            id: id(rng),
            x: self.coordinate(rng),
            y: self.coordinate(rng),
            vx: self.speed(rng),
            vy: self.speed(rng),
            start_time: 0,
        }
    }

    fn wall(&self, rng: &mut Rng) -> Wall {
        Wall {
            id: id(rng),
            ax: self.coordinate(rng),
            ay: self.coordinate(rng),
            bx: self.coordinate(rng),
            by: self.coordinate(rng),
        }
    }

    /// A command that may break rules 5, 6 and 8 to 10 by chance.
    pub fn command(&self, rng: &mut Rng) -> Command {
        if rng.below(3) < 2 {
            Command::Track(self.track(rng))
        } else {
            Command::Wall(self.wall(rng))
        }
    }

    /// A command that breaks rules 4 or 5 as well, now and then.
    fn doubtful_command(&self, rng: &mut Rng) -> Command {
        match self.command(rng) {
            other @ (Command::End | Command::LateTrack(_)) => other,
            Command::Track(mut track) => {
                match rng.below(12) {
                    0 => track.x = rng.pick(&[4095, 4096, 5000, 65535]),
                    1 => track.y = rng.pick(&[4095, 4096, 5000, 65535]),
                    2 => track.vx = rng.pick(&[63, 64, -63, -64, -128, 127]),
                    3 => track.vy = rng.pick(&[63, 64, -63, -64, -128, 127]),
                    4 => (track.vx, track.vy) = (0, 0),
                    _ => {}
                }
                Command::Track(track)
            }
            Command::Wall(mut wall) => {
                match rng.below(8) {
                    0 => wall.ax = rng.pick(&[4095, 4096, 8192]),
                    1 => wall.by = rng.pick(&[4095, 4096, 8192]),
                    2 => (wall.bx, wall.by) = (wall.ax, wall.ay),
                    _ => {}
                }
                Command::Wall(wall)
            }
        }
    }

    /// Records that a sheet can hold together: what the rules turn away is drawn again, up to
    /// `draws` draws in all. They are listed in the order in which they were drawn.
    pub fn accepted(&self, rng: &mut Rng, draws: usize) -> Vec<Command> {
        let mut records = Records::default();
        let drawn = (0..draws).map(|_| self.command(rng));
        drawn.filter(|command| records.admit(*command).is_ok()).collect()
    }
}

/// Any id, or one of a few.
fn id(rng: &mut Rng) -> u16 {
    match rng.below(4) {
        0 => rng.pick(&[0, 1, 2, 255, 256, 65535]),
        1 => rng.below(40) as u16,
        _ => rng.draw() as u16,
    }
}

fn ground(rng: &mut Rng) -> Ground {
    rng.pick(&GROUNDS)
}

pub fn accepted(rng: &mut Rng) -> Vec<u8> {
    let draws = 1 + rng.below(30);
    listing(ground(rng).accepted(rng, draws))
}

/// An accepted sheet with one doubtful command put in somewhere.
pub fn nearly_accepted(rng: &mut Rng) -> Vec<u8> {
    let ground = ground(rng);
    let draws = 1 + rng.below(20);
    let mut commands = ground.accepted(rng, draws);
    let place = rng.below(commands.len() + 1);
    commands.insert(place, ground.doubtful_command(rng));
    listing(commands)
}

pub fn doubtful(rng: &mut Rng) -> Vec<u8> {
    let ground = ground(rng);
    let count = 1 + rng.below(6);
    listing((0..count).map(|_| ground.doubtful_command(rng)))
}

/// A command made to break one of the rules 8 to 10 by what it has in common with `track`, or a tip that faces that one
/// or is ahead of it on its line, which breaks none.
fn provoking_command(rng: &mut Rng, ground: &Ground, track: &Track) -> Command {
    let Track { x, y, vx, vy, .. } = *track;
    let ahead = |by: i64| track.start() + track.speed() * by;
    let point = ahead(1 + rng.below(4) as i64);
    let (far_x, far_y) = (point.x.clamp(0, 4095) as u16, point.y.clamp(0, 4095) as u16);
    let (other, other_wall) = (ground.track(rng), ground.wall(rng));
    match rng.below(6) {
        0 => Command::Track(Track { id: track.id, ..other }),
        1 => Command::Track(Track { x, y, ..other }),
        2 => Command::Track(Track { x: far_x, y: far_y, vx: -vx, vy: -vy, ..other }),
        3 => Command::Track(Track { x: far_x, y: far_y, vx, vy, ..other }),
        4 => Command::Wall(Wall { ax: x, ay: y, ..other_wall }),
        _ => Command::Wall(Wall { bx: far_x, by: far_y, ..other_wall }),
    }
}

/// An accepted sheet with a provoking command after it or before it.
pub fn provoked(rng: &mut Rng) -> Vec<u8> {
    let ground = ground(rng);
    let draws = 4 + rng.below(16);
    let mut commands = ground.accepted(rng, draws);
    let tracks: Vec<Track> = commands.iter().filter_map(Command::as_track).collect();
    if !tracks.is_empty() {
        let track = rng.pick(&tracks);
        let command = provoking_command(rng, &ground, &track);
        let place = rng.below(commands.len() + 1);
        commands.insert(place, command);
    }
    listing(commands)
}

pub fn damaged(rng: &mut Rng) -> Vec<u8> {
    let sheet = accepted(rng);
    damage(rng, sheet)
}

/// A sheet with one to three of its bytes changed, put in or taken out, or with its end cut off.
fn damage(rng: &mut Rng, mut bytes: Vec<u8>) -> Vec<u8> {
    for _ in 0..=rng.below(3) {
        let byte = if rng.one_in(2) { rng.below(4) as u8 } else { rng.draw() as u8 };
        let place = rng.below(bytes.len() + 1);
        match rng.below(8) {
            0 => bytes.truncate(place),
            1 | 2 => bytes.insert(place, byte),
            _ if place == bytes.len() => bytes.push(byte),
            3 | 4 => drop(bytes.remove(place)),
            5 => bytes[place] ^= 1 << rng.below(8),
            _ => bytes[place] = byte,
        }
    }
    bytes
}

/// Up to 256 of each kind, all over the sheet or crowded.
pub fn large(rng: &mut Rng) -> Vec<u8> {
    let ground = rng.pick(&[WHOLE, WHOLE, BORDERS]);
    let draws = rng.pick(&[200, 600, 2000]);
    listing(ground.accepted(rng, draws))
}

/// The commands of an accepted sheet of at least two, listed in another order. A track by 03 stays one, also with start
/// time 0.
pub fn in_another_order(rng: &mut Rng, sheet: &[u8]) -> Option<Vec<u8>> {
    read(sheet).ok()?;
    let mut shuffled = whole_commands(sheet).ok()?;
    shuffled.sort_by_key(|command| command.as_track().is_none());
    rng.shuffle(&mut shuffled);
    if listing(shuffled.clone()) == sheet {
        shuffled.reverse();
    }
    (shuffled.len() > 1).then(|| listing(shuffled))
}

/// Each sheet, an accepted one followed by another order of its commands.
pub fn with_other_orders(seed: u64, sheets: Vec<Vec<u8>>) -> Vec<Vec<u8>> {
    let mut rng = Rng::new(seed);
    let with_other = |sheet: Vec<u8>| {
        let other = in_another_order(&mut rng, &sheet);
        [Some(sheet), other].into_iter().flatten()
    };
    sheets.into_iter().flat_map(with_other).collect()
}

/// So many sheets by each of these makers.
pub fn by_each(rng: &mut Rng, makers: &[Maker], count: usize) -> Vec<Vec<u8>> {
    makers.iter().flat_map(|make| std::iter::repeat_n(make, count)).map(|make| make(rng)).collect()
}

/// All made-up sheets of one seed.
pub fn all(seed: u64) -> Vec<Vec<u8>> {
    let other = [late::all(seed), sides::all(seed), shapes::all(seed), facing::all(seed), halves::all(seed)];
    [without_start_times(seed), other.concat()].concat()
}

/// Those that list no 03, unless damage makes one.
pub fn without_start_times(seed: u64) -> Vec<Vec<u8>> {
    let mut rng = Rng::new(seed);
    let mut sheets = Vec::new();
    let mut add = |count, make: Maker| {
        sheets.extend((0..count).map(|_| make(&mut rng)));
    };
    add(700, accepted);
    add(500, nearly_accepted);
    add(500, doubtful);
    add(500, provoked);
    add(700, damaged);
    add(10, large);
    sheets
}
