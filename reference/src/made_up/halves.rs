//! Made-up sheets with end points halfway between two 64ths or close to it (SHEETS 5.4): at walls that rise slowly, at
//! walls and traces across the ways of tips, at once, and looked for among many starts.

use super::late::Kept;
use super::{by_each, id, Maker, BORDERS, SMALL, TOP, WHOLE};
use crate::chosen::halves::{aimed, start_to_cross, tip, wall_between, AIMS};
use crate::fraction::Fraction;
use crate::plane::Vector;
use crate::rng::Rng;
use crate::roll::roll;
use crate::sheet::{Command, Records, Track, Wall};
use crate::turn::Turn;

fn start_time(rng: &mut Rng) -> u16 {
    match rng.below(4) {
        0 | 1 => 0,
        2 => rng.below(5) as u16,
        _ => rng.below(4096) as u16,
    }
}

/// A wall that rises by 1 or 3 over many units, and tips from below and from above. Where two are on one line, they face.
pub fn at_slow_walls(rng: &mut Rng) -> Vec<u8> {
    let length = rng.pick(&[128, 128, 128, 256, 384, 640, 1152, 3968, 127, 129, 255, 257]);
    let (turn, rise, count) = (rng.pick(&Turn::ALL), rng.pick(&[1, 1, 1, 3]), 2 + rng.below(8));
    let (x, y) = (rng.below(4096 - usize::from(length)) as u16, rng.below(4093) as u16);
    let wall = Wall { id: id(rng), ax: x, ay: y, bx: x + length, by: y + rise };
    let mut kept = Kept::default();
    kept.draw(rng, 1, |_, _| turn.command(Command::Wall(wall)));
    kept.draw(rng, count, |rng, _| {
        let furthest = rng.pick(&[3, 9, length]);
        let along = 1 + rng.below(usize::from(furthest)) as u16;
        let x = x + if rng.one_in(2) { along } else { length - along };
        let (y, way) = rng.pick(&[(y, 1), (y + rise, -1)]);
        let vy = way * rng.pick(&[1, 1, 2, 5, 63]);
        turn.command(Track { id: id(rng), x, y, vx: 0, vy, start_time: start_time(rng) }.command())
    });
    kept.sheet(rng)
}

fn speed(rng: &mut Rng) -> Vector {
    let mut speeds = std::iter::repeat_with(|| Vector::new(WHOLE.speed(rng), WHOLE.speed(rng)));
    speeds.find(|speed| speed.dot(*speed) > 0).expect("a tip that moves")
}

/// Speeds for `start_to_cross`.
fn crossed(rng: &mut Rng) -> (Vector, Vector) {
    let odd = |speed: Vector| speed.x % 2 != 0 || speed.y % 2 != 0;
    let fits = |(own, other): &(Vector, Vector)| odd(*other) && own.cross(*other).rem_euclid(256) == 128;
    std::iter::repeat_with(|| (speed(rng), speed(rng))).find(fits).expect("some pair")
}

/// One to three walls or traces, and tips that come to each after some 128ths.
pub fn at_crossings(rng: &mut Rng) -> Vec<u8> {
    let places = 1 + rng.below(3);
    let mut kept = Kept::default();
    for _ in 0..places {
        let ((own, other), at) = (crossed(rng), rng.pick(&[WHOLE, BORDERS]).track(rng).start());
        let (opens, tips) = (rng.below(4) as u16, 1 + rng.below(3));
        kept.draw(rng, 1, |rng, _| match rng.below(2) {
            0 => wall_between(id(rng), at, at + other),
            _ => tip(id(rng), at, other, opens),
        });
        kept.draw(rng, tips, |rng, _| {
            let start = at + start_to_cross(own, other, 1 + rng.below(300) as i64);
            tip(id(rng), start, own, opens + rng.pick(&[0, 1, 1, 2]))
        });
    }
    kept.sheet(rng)
}

/// Tips that come to a wall after a few halves of a 64th, some with another that faces them; and a few records more.
pub fn at_once(rng: &mut Rng) -> Vec<u8> {
    let (places, more, ground) = (1 + rng.below(4), rng.below(3), rng.pick(&[SMALL, TOP, WHOLE]));
    let mut kept = Kept::default();
    for _ in 0..places {
        let (turn, aim, times) = (rng.pick(&Turn::ALL), rng.pick(&AIMS), rng.pick(&[1, 1, 1, 2, 3, 5]));
        let at = Vector::new(700 + rng.below(2600) as i64, 700 + rng.below(2600) as i64);
        let (ids, opens) = ((id(rng), id(rng)), rng.one_in(2).then(|| start_time(rng)));
        for command in aimed(aim, times, at, ids, opens) {
            kept.draw(rng, 1, |_, _| turn.command(command));
        }
    }
    kept.draw(rng, more, |rng, _| ground.command(rng));
    kept.sheet(rng)
}

/// How far a tip that is alone with a wall ends from a half, in x or in y, whichever is closer.
fn off(track: Track, wall: Wall) -> Fraction {
    let rows = roll(&Records { tracks: vec![track], walls: vec![wall] });
    let (x, y) = track.at(rows[0].time);
    let off = |part: Fraction| {
        let from_half = Fraction::whole(64) * part - Fraction::HALF;
        let off = from_half - Fraction::whole(from_half.nearest());
        off.max(-off)
    };
    off(x).min(off(y))
}

/// A wall or two anywhere, and tips to them: of many starts, each has the one from which it ends closest to a half.
pub fn looked_for(rng: &mut Rng) -> Vec<u8> {
    let (walls, tips) = (1 + rng.below(2), 1 + rng.below(3));
    let mut kept = Kept::default();
    for _ in 0..walls {
        let wall = WHOLE.wall(rng);
        kept.draw(rng, 1, |_, _| Command::Wall(wall));
        kept.draw(rng, tips, |rng, _| {
            let (speed, opens) = (speed(rng), start_time(rng));
            let anywhere = |rng: &mut Rng| tip(id(rng), WHOLE.track(rng).start(), speed, opens);
            let tips = (0..60).filter_map(|_| anywhere(rng).as_track());
            tips.min_by_key(|track| off(*track, wall)).expect("some tip").command()
        });
    }
    kept.sheet(rng)
}

/// What makes accepted sheets.
pub const MAKERS: [Maker; 4] = [at_slow_walls, at_crossings, at_once, looked_for];

/// All made-up sheets of one seed.
pub fn all(seed: u64) -> Vec<Vec<u8>> {
    by_each(&mut Rng::new(seed), &MAKERS, 100)
}
