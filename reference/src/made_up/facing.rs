//! Made-up sheets with tips that face each other: pairs and more on one line, late ones among them, with walls and
//! traces that end one of them first, and places to which several come. They are small, so that equal times are frequent.

use super::late::Kept;
use super::{by_each, id, Maker};
use crate::line::Line;
use crate::plane::Vector;
use crate::rng::Rng;
use crate::sheet::{Command, Records, Track, Wall};

const WAYS: [(i64, i64); 14] = [
    (1, 0),
    (-1, 0),
    (0, 1),
    (0, -1),
    (1, 1),
    (-1, 1),
    (1, -1),
    (-1, -1),
    (2, 1),
    (1, -2),
    (-1, 3),
    (3, 2),
    (-2, -3),
    (5, -1),
];

/// Points about which sheets are made up: corners and borders of cells, any, near corners of the sheet.
const POINTS: [(i64, i64); 8] =
    [(2048, 2048), (1024, 3072), (2048, 100), (300, 1024), (150, 130), (8, 8), (4088, 4088), (9, 4087)];

fn way(rng: &mut Rng) -> Vector {
    let (x, y) = rng.pick(&WAYS);
    Vector { x, y }
}

fn somewhere(rng: &mut Rng) -> Vector {
    let (x, y) = rng.pick(&POINTS);
    Vector { x, y }
}

/// Its places 0 to 12 are used.
fn line(rng: &mut Rng) -> Line {
    Line::through(somewhere(rng), 6, way(rng))
}

fn place(rng: &mut Rng, from: i64, to: i64) -> i64 {
    from + rng.below((to - from + 1) as usize) as i64
}

fn pace(rng: &mut Rng) -> i64 {
    rng.pick(&[1, 1, 1, 2, 2, 3, 4, 12])
}

fn start_time(rng: &mut Rng) -> u16 {
    rng.pick(&[0, 0, 0, 0, 1, 2, 3, 4, 6, 9])
}

/// A tip that comes across the line to a place on it, or opens there.
fn crossing(rng: &mut Rng, line: &Line, place: i64, time: u16) -> Command {
    let pace = (rng.pick(&[-2, -1, 0, 0, 0, 1, 2]), rng.pick(&[-2, -1, 1, 2]));
    let age = rng.pick(&[0, 1, 1, 2, 2, 3, 4]).min(time);
    line.coming(id(rng), place, pace, age, time)
}

/// A wall through a place of the line or from it, across, slanting or along; or through a point between two places.
fn wall(rng: &mut Rng, line: &Line, place: i64) -> Command {
    let (a, b) = rng.pick(&[
        ((0, -1), (0, 1)),
        ((0, 0), (0, 2)),
        ((-1, -1), (1, 1)),
        ((1, -1), (-1, 1)),
        ((0, 0), (1, 0)),
        ((0, 0), (-1, 0)),
        ((0, -1), (1, 2)),
        ((1, 1), (0, -1)),
    ]);
    let ends = ((place + a.0, a.1), (place + b.0, b.1));
    let (a, b) = if rng.one_in(2) { ends } else { (ends.1, ends.0) };
    line.wall(id(rng), a, b)
}

/// What may end a tip on the line before it comes to another.
fn obstacle(rng: &mut Rng, line: &Line) -> Command {
    let place = place(rng, 1, 11);
    if rng.one_in(3) {
        wall(rng, line, place)
    } else {
        let time = rng.below(9) as u16;
        crossing(rng, line, place, time)
    }
}

fn any_tip(rng: &mut Rng, line: &Line) -> Command {
    let pace = pace(rng) * rng.pick(&[1, -1]);
    line.tip(id(rng), place(rng, 0, 12), pace, start_time(rng))
}

/// One tip at either end of the line, running toward each other.
fn draw_pair(rng: &mut Rng, line: &Line, kept: &mut Kept) {
    kept.draw(rng, 1, |rng, _| line.tip(id(rng), place(rng, 0, 4), pace(rng), start_time(rng)));
    kept.draw(rng, 1, |rng, _| line.tip(id(rng), place(rng, 8, 12), -pace(rng), start_time(rng)));
}

/// Two tips, and what may come between them.
pub fn pair(rng: &mut Rng) -> Vec<u8> {
    let (line, obstacles) = (line(rng), rng.below(4));
    let mut kept = Kept::default();
    draw_pair(rng, &line, &mut kept);
    kept.draw(rng, obstacles, |rng, _| obstacle(rng, &line));
    kept.sheet(rng)
}

/// Two tips that face and one to four more on their line, each going either way.
pub fn several(rng: &mut Rng) -> Vec<u8> {
    let (line, more, obstacles) = (line(rng), 1 + rng.below(4), rng.below(3));
    let mut kept = Kept::default();
    draw_pair(rng, &line, &mut kept);
    kept.draw(rng, more, |rng, _| any_tip(rng, &line));
    kept.draw(rng, obstacles, |rng, _| obstacle(rng, &line));
    kept.sheet(rng)
}

/// A track that starts where one of the tracks is at a whole age and runs toward it, opening before that one comes, just
/// then, or later.
fn opening_before(rng: &mut Rng, records: &Records) -> Command {
    let old = rng.pick(&records.tracks);
    let age = 1 + rng.below(4) as i64;
    let (at, factor) = (old.start() + old.speed() * age, rng.pick(&[-1, -1, -2, -3]));
    let time = i64::from(old.start_time) + age + rng.pick(&[-3, -1, 0, 0, 0, 1, 1, 5]);
    let speed = old.speed() * factor;
    let (vx, vy) = (speed.x as i8, speed.y as i8);
    Track { id: id(rng), x: at.x as u16, y: at.y as u16, vx, vy, start_time: time.max(0) as u16 }.command()
}

/// Late tips that open on the way of others and run toward them.
pub fn opening(rng: &mut Rng) -> Vec<u8> {
    let (line, late, obstacles) = (line(rng), 1 + rng.below(3), rng.below(3));
    let mut kept = Kept::default();
    // Some of the first places may be outside the sheet.
    kept.draw(rng, 1 + late, |rng, records| match records.tracks.len() {
        0 => line.tip(id(rng), place(rng, 0, 8), pace(rng).min(3), start_time(rng)),
        _ => opening_before(rng, records),
    });
    kept.draw(rng, obstacles, |rng, _| obstacle(rng, &line));
    kept.sheet(rng)
}

/// Tips from both ends of the line, walls and tips across it come to one place at about one time; now and then another
/// tip on the line.
pub fn together(rng: &mut Rng) -> Vec<u8> {
    let (line, place, time) = (line(rng), 3 + rng.below(7) as i64, 3 + rng.below(3) as u16);
    let near = |rng: &mut Rng| time + rng.pick(&[2, 2, 2, 2, 1, 0, 3]) - 2;
    let mut kept = Kept::default();
    for way in [1, -1] {
        kept.draw(rng, 1, |rng, _| {
            let (pace, when) = (way * rng.pick(&[1, 1, 2, 3]), near(rng));
            line.coming(id(rng), place, (pace, 0), rng.below(usize::from(when) + 1) as u16, when)
        });
    }
    let more = 1 + rng.below(3);
    kept.draw(rng, more, |rng, _| match rng.below(6) {
        0 | 1 => wall(rng, &line, place),
        2 => any_tip(rng, &line),
        _ => {
            let when = near(rng);
            crossing(rng, &line, place, when)
        }
    });
    kept.sheet(rng)
}

/// Two lines that cross, with a pair on each; which tips end first decides over the others.
pub fn crossed(rng: &mut Rng) -> Vec<u8> {
    let (at, obstacles) = (somewhere(rng), rng.below(2));
    let lines = [0, 1].map(|_| Line::through(at, place(rng, 4, 8), way(rng)));
    let mut kept = Kept::default();
    for line in lines {
        draw_pair(rng, &line, &mut kept);
    }
    kept.draw(rng, obstacles, |rng, _| obstacle(rng, &lines[0]));
    kept.sheet(rng)
}

/// Anywhere in a small field, every second tip parallel to an axis, some running toward others.
pub fn dense(rng: &mut Rng) -> Vec<u8> {
    let (corner, tips, walls) = (somewhere(rng), 3 + rng.below(5), rng.below(3));
    let corner = Vector { x: (corner.x - 5).min(4083), y: (corner.y - 5).min(4083) };
    let part = |rng: &mut Rng, from: i64| (from + rng.below(13) as i64) as u16;
    let mut kept = Kept::default();
    kept.draw(rng, tips, |rng, records| {
        if !records.tracks.is_empty() && rng.one_in(3) {
            return opening_before(rng, records);
        }
        let speed = |rng: &mut Rng| rng.below(7) as i8 - 3;
        let (vx, vy) = match rng.below(4) {
            0 => (speed(rng), 0),
            1 => (0, speed(rng)),
            _ => (speed(rng), speed(rng)),
        };
        let (x, y) = (part(rng, corner.x), part(rng, corner.y));
        Track { id: id(rng), x, y, vx, vy, start_time: start_time(rng) }.command()
    });
    kept.draw(rng, walls, |rng, _| {
        let (ax, ay, bx, by) = (part(rng, corner.x), part(rng, corner.y), part(rng, corner.x), part(rng, corner.y));
        Command::Wall(Wall { id: id(rng), ax, ay, bx, by })
    });
    kept.sheet(rng)
}

/// A line whose place 6 is this point of the border and which comes from the inside, if it can.
fn outward(rng: &mut Rng, at: Vector) -> Line {
    let way = way(rng);
    let line = Line::through(at, 6, way);
    let inside = |part: i64| (0..=4095).contains(&part);
    if inside(line.origin.x) && inside(line.origin.y) {
        line
    } else {
        Line::through(at, 6, -way)
    }
}

/// A tip that comes to the border, one that opens there or near it and comes back, and more on that line or another.
pub fn at_the_edge(rng: &mut Rng) -> Vec<u8> {
    let (edge, along) = (rng.pick(&[0, 4095]), rng.pick(&[0, 90, 1024, 2000, 4095]));
    let at = if rng.one_in(2) { Vector::new(edge, along) } else { Vector::new(along, edge) };
    let lines = [0, 1].map(|_| outward(rng, at));
    let (more, obstacles) = (rng.below(4), rng.below(2));
    let mut kept = Kept::default();
    kept.draw(rng, 1, |rng, _| lines[0].tip(id(rng), place(rng, 0, 4), rng.pick(&[1, 1, 2]), start_time(rng)));
    kept.draw(rng, 1, |rng, _| lines[0].tip(id(rng), rng.pick(&[5, 6, 6]), -1, rng.pick(&[0, 2, 4, 5, 6, 9])));
    kept.draw(rng, more, |rng, _| {
        let line = rng.pick(&lines);
        any_tip(rng, &line)
    });
    kept.draw(rng, obstacles, |rng, _| obstacle(rng, &lines[0]));
    kept.sheet(rng)
}

/// What makes accepted sheets.
pub const MAKERS: [Maker; 7] = [pair, several, opening, together, crossed, dense, at_the_edge];

/// All made-up sheets of one seed.
pub fn all(seed: u64) -> Vec<Vec<u8>> {
    by_each(&mut Rng::new(seed), &MAKERS, 440)
}
