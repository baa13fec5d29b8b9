//! Made-up sheets for the shapefiles (SHEETS 12): tips that end at their start, and such that end about a 64th from it.

use super::late::{drawn, Kept};
use super::{by_each, ground, id, Maker};
use crate::rng::Rng;
use crate::sheet::{Command, Records, Track, Wall};

fn speed(rng: &mut Rng) -> i8 {
    rng.pick(&[-63, -62, -9, -2, -1, 0, 0, 1, 2, 9, 62, 63])
}

fn start_time(rng: &mut Rng) -> u16 {
    match rng.below(3) {
        0 => 0,
        1 => rng.below(30) as u16,
        _ => rng.below(4096) as u16,
    }
}

/// The track with x and y exchanged.
fn exchanged(track: Track) -> Track {
    Track { x: track.y, y: track.x, vx: track.vy, vy: track.vx, ..track }
}

/// A tip on the border that goes out over it, or along it.
fn outward(rng: &mut Rng) -> Command {
    let (edge, out) = rng.pick(&[(0, -1), (4095, 1)]);
    let anywhere = rng.below(4096) as u16;
    let along = rng.pick(&[0, 1, 4094, 4095, anywhere, anywhere, anywhere]);
    let (vx, vy) = (out * rng.pick(&[0, 1, 1, 2, 63]), speed(rng));
    let track = Track { id: id(rng), x: edge, y: along, vx, vy, start_time: start_time(rng) };
    let track = if rng.one_in(2) { exchanged(track) } else { track };
    track.command()
}

/// A late tip that stands where an older one passes at a whole age, or one unit off.
fn by_an_older(rng: &mut Rng, records: &Records) -> Command {
    if records.tracks.is_empty() {
        return outward(rng);
    }
    let old = rng.pick(&records.tracks);
    let age = rng.below(40) as i64;
    let start = old.start() + old.speed() * age;
    let off = |rng: &mut Rng| rng.pick(&[0, 0, 0, 1, -1]);
    // Outside the sheet the coordinates are above 4095, which is refused.
    let (x, y) = ((start.x + off(rng)) as u16, (start.y + off(rng)) as u16);
    let start_time = old.start_time + age as u16 + rng.pick(&[0, 1, 1, 1, 50]);
    Track { id: id(rng), x, y, vx: speed(rng), vy: speed(rng), start_time }.command()
}

/// Null shapes among other traces.
pub fn null(rng: &mut Rng) -> Vec<u8> {
    let (ground, draws, out, late) = (ground(rng), rng.below(6), rng.below(8), rng.below(8));
    let mut kept = drawn(rng, &ground, draws);
    kept.draw(rng, out, |rng, _| outward(rng));
    kept.draw(rng, late, by_an_older);
    kept.sheet(rng)
}

/// Tips that leave the sheet as they open, and some that run along its border.
pub fn all_outward(rng: &mut Rng) -> Vec<u8> {
    let count = 1 + rng.below(20);
    let mut kept = Kept::default();
    kept.draw(rng, count, |rng, _| outward(rng));
    kept.sheet(rng)
}

/// A long wall that rises by one unit, tips that start close above or below it near an end, and a few on the border.
pub fn barely(rng: &mut Rng) -> Vec<u8> {
    let length = rng.pick(&[64, 65, 100, 127, 128, 129, 1000, 3000]);
    let (low, turned) = (rng.below(4095 - usize::from(length)) as u16, rng.one_in(2));
    let (high, base) = (low + length, rng.below(4095) as u16);
    let wall = Wall { id: id(rng), ax: low, ay: base, bx: high, by: base + 1 };
    let wall = if turned { Wall { ax: wall.ay, ay: wall.ax, bx: wall.by, by: wall.bx, ..wall } } else { wall };
    let (count, furthest) = (1 + rng.below(8), 1 + usize::from(length / 32));
    let mut kept = Kept::default();
    kept.draw(rng, 1, |_, _| Command::Wall(wall));
    kept.draw(rng, count, |rng, _| {
        let along = 1 + rng.below(furthest) as u16;
        let (x, y, way) = if rng.one_in(2) { (low + along, base, 1) } else { (high - along, base + 1, -1) };
        let (vx, vy) = (speed(rng), way * rng.pick(&[1, 2, 62, 63]));
        let track = Track { id: id(rng), x, y, vx, vy, start_time: start_time(rng) };
        let track = if turned { exchanged(track) } else { track };
        track.command()
    });
    kept.draw(rng, 3, |rng, _| outward(rng));
    kept.sheet(rng)
}

/// What makes accepted sheets.
pub const MAKERS: [Maker; 3] = [null, all_outward, barely];

/// All made-up sheets of one seed.
pub fn all(seed: u64) -> Vec<Vec<u8>> {
    by_each(&mut Rng::new(seed), &MAKERS, 100)
}
