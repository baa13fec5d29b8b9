//! Made-up sheets in which tips have several causes at one time, with different sides (SHEETS 4.9, 4.14): tips and walls
//! come together at a few points.

use super::late::Kept;
use super::{ground, id, Maker};
use crate::plane::Vector;
use crate::rng::Rng;
use crate::sheet::{Command, Records, Track, Wall};

/// A point, and about when tips come to it.
#[derive(Clone, Copy)]
struct Knot {
    at: Vector,
    time: i64,
}

/// Small, so that lines and times are often the same.
fn speed(rng: &mut Rng) -> Vector {
    let part = |rng: &mut Rng| rng.below(7) as i64 - 3;
    Vector { x: part(rng), y: part(rng) }
}

impl Knot {
    /// A tip that comes to the point, most often at its time; at age 0 it opens there. A start outside the sheet has
    /// coordinates above 4095, which is refused.
    fn tip(&self, rng: &mut Rng) -> Command {
        let speed = speed(rng) * rng.pick(&[1, 1, 1, 9]);
        let time = self.time + rng.pick(&[0, 0, 0, 0, -1, -2, -3, 1]);
        let age = rng.below(time as usize + 1) as i64;
        let start = self.at - speed * age;
        let (x, y, vx, vy) = (start.x as u16, start.y as u16, speed.x as i8, speed.y as i8);
        Track { id: id(rng), x, y, vx, vy, start_time: (time - age) as u16 }.command()
    }

    /// A wall through the point or from it, given from either end; often along the line of one of the tracks.
    fn wall(&self, rng: &mut Rng, records: &Records) -> Command {
        let direction = match records.tracks.len() {
            0 => speed(rng),
            _ if rng.one_in(2) => speed(rng),
            _ => rng.pick(&records.tracks).speed(),
        };
        let (before, behind) = rng.pick(&[(0, 1), (0, 3), (1, 1), (2, 1), (1, 0), (3, 0)]);
        let ends = (self.at - direction * before, self.at + direction * behind);
        let (a, b) = if rng.one_in(2) { ends } else { (ends.1, ends.0) };
        Command::Wall(Wall { id: id(rng), ax: a.x as u16, ay: a.y as u16, bx: b.x as u16, by: b.y as u16 })
    }
}

/// One to three such points, with tips and walls in any order: where one opens at the point, no wall is there.
pub fn knots(rng: &mut Rng) -> Vec<u8> {
    let (ground, count) = (ground(rng), 1 + rng.below(3));
    let mut kept = Kept::default();
    for _ in 0..count {
        let knot = Knot { at: ground.track(rng).start(), time: 3 + rng.below(4) as i64 };
        let (draws, walls) = (3 + rng.below(6), rng.below(3));
        kept.draw(
            rng,
            draws,
            |rng, records| {
                if rng.below(4) < walls {
                    knot.wall(rng, records)
                } else {
                    knot.tip(rng)
                }
            },
        );
    }
    kept.sheet(rng)
}

/// What makes accepted sheets.
pub const MAKERS: [Maker; 1] = [knots];

/// All made-up sheets of one seed.
pub fn all(seed: u64) -> Vec<Vec<u8>> {
    let mut rng = Rng::new(seed);
    (0..300).map(|_| knots(&mut rng)).collect()
}
