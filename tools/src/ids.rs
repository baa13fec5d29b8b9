//! The ids of a picture: each beside its track's start, with a late start's time, or beside its wall's middle, where there
//! is room; nowhere, if there is none. In hundredths of a pixel.

use crate::room::{text, Area, Point, Room, MARK};
use crate::trace::Trace;
use crate::view::in_64ths;
use reference::sheet::{Track, Wall};

const FONT: i64 = 1000;
const DIGIT: i64 = 640;
/// From a point to the nearer side of its id.
const GAP: i64 = 600;
/// An id keeps clear from its own mark on, so that no other point stands between the two.
const NEAR: i64 = MARK / 2 + 50;

/// The ids that have a place.
pub fn draw(walls: &[Wall], traces: &[Trace], room: &mut Room) -> String {
    let mut ids = format!("<g text-anchor=\"middle\" font-size=\"{}\">\n", FONT / 100);
    for Trace { track, .. } in traces {
        let start = in_64ths(track.x, track.y);
        ids += &label(room, start, &beside(track), &words(track));
    }
    for wall in walls {
        ids += &label(room, middle(wall), &ASLANT, &format!("w{}", wall.id));
    }
    ids + "</g>\n"
}

/// The id, and the start time if that is not 0.
fn words(track: &Track) -> String {
    match track.start_time {
        0 => track.id.to_string(),
        time => format!("{} from {time}", track.id),
    }
}

/// The ways across and down from a wall's middle.
const ASLANT: [Point; 4] = [(1, -1), (-1, -1), (1, 1), (-1, 1)];

/// The ways from a start: behind it, on the axis of the greater speed; then to its sides.
fn beside(track: &Track) -> [Point; 3] {
    let (vx, vy) = (i64::from(track.vx), i64::from(track.vy));
    let [behind, side] = if vx.abs() > vy.abs() { [(-vx.signum(), 0), (0, -1)] } else { [(0, vy.signum()), (-1, 0)] };
    [behind, side, (-side.0, -side.1)]
}

fn middle(wall: &Wall) -> (i64, i64) {
    let ((ax, ay), (bx, by)) = (in_64ths(wall.ax, wall.ay), in_64ths(wall.bx, wall.by));
    ((ax + bx) / 2, (ay + by) / 2)
}

/// The words beside a point that the view shows, on the first way that is clear.
fn label(room: &mut Room, point: (i64, i64), ways: &[Point], words: &str) -> String {
    if !room.view.holds(point.0, point.1) {
        return String::new();
    }
    let (x, y) = room.pixels(point);
    let wide = DIGIT * words.len() as i64;
    let mut places = ways.iter().map(|&(across, down)| {
        let place = (x + across * (GAP + wide / 2), y + down * (GAP + FONT / 2));
        let near = (x + across * NEAR, y + down * NEAR);
        (place, Area::around(place, wide, FONT).up_to(near))
    });
    let clear = places.find(|(_, area)| room.take(*area));
    clear.map_or_else(String::new, |(place, _)| text(place, FONT, words))
}
