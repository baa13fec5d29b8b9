//! Tips and walls that are placed by a line, for sheets in which tips face each other.

use crate::plane::Vector;
use crate::sheet::{Command, Track, Wall};

/// A line with places on it, a `way` apart; place 0 is at `origin`. Outside the sheet coordinates are above 4095, which is
/// refused.
#[derive(Clone, Copy, Debug)]
pub struct Line {
    pub origin: Vector,
    pub way: Vector,
}

fn point(at: Vector) -> (u16, u16) {
    (at.x as u16, at.y as u16)
}

impl Line {
    /// The line on which this point is the place with that number.
    pub fn through(at: Vector, place: i64, way: Vector) -> Self {
        Line { origin: at - way * place, way }
    }

    /// A point by its place along the line, and so many steps to the left of it.
    pub fn at(&self, along: i64, left: i64) -> Vector {
        self.origin + self.way * along + self.step(0, 1) * left
    }

    /// So far along the line and to its left.
    fn step(&self, along: i64, left: i64) -> Vector {
        self.way * along + Vector { x: -self.way.y, y: self.way.x } * left
    }

    /// A tip on the line, by its pace in places: above 0 along it, below 0 against it.
    pub fn tip(&self, id: u16, along: i64, pace: i64, start_time: u16) -> Command {
        self.coming(id, along, (pace, 0), 0, start_time)
    }

    /// A tip that comes to a place of the line at this age and time, with a pace along the line and to its left. At age 0
    /// it opens there.
    pub fn coming(&self, id: u16, along: i64, pace: (i64, i64), age: u16, time: u16) -> Command {
        let speed = self.step(pace.0, pace.1);
        let (x, y) = point(self.at(along, 0) - speed * i64::from(age));
        Track { id, x, y, vx: speed.x as i8, vy: speed.y as i8, start_time: time - age }.command()
    }

    /// A wall between two points, each by its place and its steps to the left.
    pub fn wall(&self, id: u16, a: (i64, i64), b: (i64, i64)) -> Command {
        let ((ax, ay), (bx, by)) = (point(self.at(a.0, a.1)), point(self.at(b.0, b.1)));
        Command::Wall(Wall { id, ax, ay, bx, by })
    }
}
