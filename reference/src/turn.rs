//! Sheets turned and mirrored, so that what is made for one way of going is there for all eight.

use crate::sheet::{Command, Track, Wall, MAX_COORDINATE};

/// One of the eight ways to lay the sheet upon itself: first x and y may be exchanged, then each may run backward.
#[derive(Clone, Copy, Debug)]
pub struct Turn {
    exchanged: bool,
    x_backward: bool,
    y_backward: bool,
}

impl Turn {
    /// The first leaves all as it is.
    pub const ALL: [Turn; 8] = [
        Turn { exchanged: false, x_backward: false, y_backward: false },
        Turn { exchanged: false, x_backward: true, y_backward: false },
        Turn { exchanged: false, x_backward: false, y_backward: true },
        Turn { exchanged: false, x_backward: true, y_backward: true },
        Turn { exchanged: true, x_backward: false, y_backward: false },
        Turn { exchanged: true, x_backward: true, y_backward: false },
        Turn { exchanged: true, x_backward: false, y_backward: true },
        Turn { exchanged: true, x_backward: true, y_backward: true },
    ];

    fn exchange<T>(self, (x, y): (T, T)) -> (T, T) {
        if self.exchanged {
            (y, x)
        } else {
            (x, y)
        }
    }

    fn point(self, x: u16, y: u16) -> (u16, u16) {
        let (x, y) = self.exchange((x, y));
        let part = |backward, part| if backward { MAX_COORDINATE - part } else { part };
        (part(self.x_backward, x), part(self.y_backward, y))
    }

    fn speed(self, vx: i8, vy: i8) -> (i8, i8) {
        let (vx, vy) = self.exchange((vx, vy));
        let part = |backward, part: i8| if backward { -part } else { part };
        (part(self.x_backward, vx), part(self.y_backward, vy))
    }

    fn track(self, track: Track) -> Track {
        let ((x, y), (vx, vy)) = (self.point(track.x, track.y), self.speed(track.vx, track.vy));
        Track { x, y, vx, vy, ..track }
    }

    fn wall(self, wall: Wall) -> Wall {
        let ((ax, ay), (bx, by)) = (self.point(wall.ax, wall.ay), self.point(wall.bx, wall.by));
        Wall { ax, ay, bx, by, ..wall }
    }

    pub fn command(self, command: Command) -> Command {
        match command {
            Command::End => Command::End,
            Command::Track(track) => Command::Track(self.track(track)),
            Command::LateTrack(track) => Command::LateTrack(self.track(track)),
            Command::Wall(wall) => Command::Wall(self.wall(wall)),
        }
    }
}
