//! From which side a tip came to the line that ended it (SHEETS 4.14), worked out by hand.

use reference::chosen::{late, track, wall};
use reference::roll::Side::{self, Along, Left, NoSide, Right};
use reference::roll::{roll, roll_bytes, Row};
use reference::sheet::{listing, read, Command, Track};

fn rows(commands: &[Command]) -> Vec<Row> {
    roll(&read(&listing(commands.iter().copied())).expect("accepted"))
}

/// What the row of track 1 says of its ending: kind, partner and side.
fn ending(commands: &[Command]) -> (u8, u16, Side) {
    let row = rows(commands).into_iter().find(|row| row.id == 1).expect("a row of track 1");
    (row.ending.kind(), row.ending.partner(), row.side)
}

/// Comes to (200, 100) at 10, from the left of the page.
const TIP: Command = Command::Track(Track { id: 1, x: 100, y: 100, vx: 10, vy: 0, start_time: 0 });

#[test]
fn a_wall_is_seen_from_a_to_b() {
    assert_eq!(ending(&[TIP, wall(4, 200, 50, 200, 150)]), (3, 4, Left));
    assert_eq!(ending(&[TIP, wall(4, 200, 150, 200, 50)]), (3, 4, Right));
    // Slanting walls, and one of which only an end is met.
    assert_eq!(ending(&[TIP, wall(4, 150, 50, 250, 150)]), (3, 4, Left));
    assert_eq!(ending(&[TIP, wall(4, 250, 50, 150, 150)]), (3, 4, Left));
    assert_eq!(ending(&[TIP, wall(4, 150, 150, 250, 50)]), (3, 4, Right));
    assert_eq!(ending(&[TIP, wall(4, 200, 100, 0, 99)]), (3, 4, Right));
    assert_eq!(ending(&[TIP, wall(4, 0, 99, 200, 100)]), (3, 4, Left));
}

#[test]
fn the_four_ways_to_a_level_wall_and_a_steep_one() {
    let (right, left) = (wall(4, 50, 100, 150, 100), wall(4, 150, 100, 50, 100));
    let (below, above) = (track(1, 100, 80, 0, 1), track(1, 100, 120, 0, -1));
    let sides =
        [(below, right), (below, left), (above, right), (above, left)].map(|(tip, wall)| ending(&[tip, wall]).2);
    assert_eq!(sides, [Right, Left, Left, Right]);
    let (up, down) = (wall(4, 100, 50, 100, 150), wall(4, 100, 150, 100, 50));
    let (before, behind) = (track(1, 80, 100, 1, 0), track(1, 120, 100, -1, 0));
    let sides = [(before, up), (before, down), (behind, up), (behind, down)].map(|(tip, wall)| ending(&[tip, wall]).2);
    assert_eq!(sides, [Left, Right, Right, Left]);
}

#[test]
fn along_a_wall() {
    assert_eq!(ending(&[TIP, wall(4, 200, 100, 300, 100)]), (3, 4, Along));
    assert_eq!(ending(&[TIP, wall(4, 300, 100, 200, 100)]), (3, 4, Along));
    assert_eq!(ending(&[track(1, 50, 50, -3, 3), wall(4, 20, 80, 40, 60)]), (3, 4, Along));
}

#[test]
fn a_track_is_seen_in_the_direction_in_which_it_runs() {
    assert_eq!(ending(&[TIP, track(2, 200, 50, 0, 10)]), (1, 2, Left));
    assert_eq!(ending(&[TIP, track(2, 200, 150, 0, -10)]), (1, 2, Right));
    // It need not be square to the tip, nor slower.
    assert_eq!(ending(&[TIP, track(2, 150, 99, 50, 1)]), (1, 2, Left));
    assert_eq!(ending(&[TIP, track(2, 250, 99, -50, 1)]), (1, 2, Left));
    assert_eq!(ending(&[TIP, track(2, 250, 101, -50, -1)]), (1, 2, Right));
}

#[test]
fn two_that_meet_come_from_opposite_sides() {
    let sides = |commands: &[Command]| rows(commands).iter().map(|row| row.side).collect::<Vec<_>>();
    assert_eq!(sides(&[TIP, track(2, 200, 50, 0, 5)]), [Left, Right]);
    assert_eq!(sides(&[TIP, track(2, 200, 150, 0, -5)]), [Right, Left]);
}

#[test]
fn along_a_track() {
    // To the start of one that is ahead and has opened, that opens just then; and opening on the trace of one behind.
    let ahead = |time| late(2, 200, 100, 5, 0, time);
    assert_eq!(ending(&[TIP, ahead(3)]), (1, 2, Along));
    assert_eq!(ending(&[TIP, ahead(10)]), (2, 2, Along));
    assert_eq!(ending(&[track(2, 50, 100, 10, 0), late(1, 100, 100, 3, 0, 7)]), (1, 2, Along));
}

#[test]
fn a_tip_that_opens_on_a_trace_has_the_side_that_its_speed_gives() {
    let old = track(2, 50, 100, 10, 0);
    let opening = |vx, vy| ending(&[old, late(1, 100, 100, vx, vy, 7)]);
    assert_eq!(opening(0, 1), (1, 2, Right));
    assert_eq!(opening(0, -1), (1, 2, Left));
    assert_eq!(opening(-63, 1), (1, 2, Right));
    assert_eq!(opening(63, -1), (1, 2, Left));
    assert_eq!(opening(63, 0), (1, 2, Along));
}

#[test]
fn the_start_of_a_tip_that_has_gone_is_on_its_line() {
    // 2 leaves over the edge as it opens, so its trace is a point; its speed still gives the side.
    let leaves = |vx, vy| ending(&[late(2, 0, 100, vx, vy, 3), track(1, 0, 300, 0, -10)]);
    assert_eq!(leaves(-10, 0), (1, 2, Right));
    assert_eq!(leaves(-10, 63), (1, 2, Right));
    assert_eq!(leaves(-10, -63), (1, 2, Right));
}

#[test]
fn the_edge_has_no_side() {
    assert_eq!(ending(&[TIP]), (4, 0, NoSide));
    assert_eq!(ending(&[track(1, 4095, 5, 1, 0)]), (4, 0, NoSide));
    assert_eq!(ending(&[track(1, 4095, 5, 0, 1)]), (4, 0, NoSide));
}

#[test]
fn of_a_track_and_a_wall_the_track_gives_the_side() {
    // 2 comes first and ends at the wall, at the point to which 1 comes.
    let up = track(2, 200, 50, 0, 10);
    assert_eq!(ending(&[TIP, up, wall(0, 150, 50, 250, 150)]), (1, 2, Left));
    assert_eq!(ending(&[TIP, up, wall(0, 250, 150, 150, 50)]), (1, 2, Left));
    assert_eq!(ending(&[TIP, up, wall(0, 200, 100, 300, 100)]), (1, 2, Left));
    let down = track(2, 200, 150, 0, -10);
    assert_eq!(ending(&[TIP, down, wall(0, 150, 50, 250, 150)]), (1, 2, Right));
    // Together with 2.
    assert_eq!(ending(&[TIP, track(2, 200, 150, 0, -5), wall(0, 150, 50, 250, 150)]), (2, 2, Right));
}

#[test]
fn of_two_tracks_the_smaller_id_gives_the_side() {
    let (up, down) = (|id| track(id, 200, 50, 0, 10), |id| track(id, 210, 200, -1, -10));
    assert_eq!(ending(&[TIP, up(2), down(3)]), (1, 2, Left));
    assert_eq!(ending(&[TIP, up(3), down(2)]), (2, 2, Right));
    // One that has opened ahead on the tip's line is no better than another.
    let ahead = |id| late(id, 200, 100, 5, 0, 8);
    assert_eq!(ending(&[TIP, up(2), ahead(3)]), (1, 2, Left));
    assert_eq!(ending(&[TIP, up(3), ahead(2)]), (1, 2, Along));
}

#[test]
fn of_two_walls_the_smaller_id_gives_the_side() {
    let (up, down) = (|id| wall(id, 200, 50, 200, 150), |id| wall(id, 250, 150, 150, 50));
    let ahead = |id| wall(id, 200, 100, 300, 100);
    assert_eq!(ending(&[TIP, up(2), down(3)]), (3, 2, Left));
    assert_eq!(ending(&[TIP, up(3), down(2)]), (3, 2, Right));
    assert_eq!(ending(&[TIP, up(2), ahead(3)]), (3, 2, Left));
    assert_eq!(ending(&[TIP, up(3), ahead(2)]), (3, 2, Along));
    assert_eq!(ending(&[TIP, down(3), ahead(2)]), (3, 2, Along));
}

#[test]
fn what_is_on_the_edge_gives_the_side() {
    let to_edge = track(1, 4085, 100, 1, 0);
    assert_eq!(ending(&[to_edge, wall(4, 4095, 90, 4095, 110)]), (3, 4, Left));
    assert_eq!(ending(&[to_edge, wall(4, 4095, 110, 4095, 90)]), (3, 4, Right));
    assert_eq!(ending(&[to_edge, track(2, 4095, 120, 0, -10)]), (1, 2, Right));
    assert_eq!(ending(&[to_edge, track(2, 4095, 90, 0, 1)]), (2, 2, Left));
}

#[test]
fn the_least_and_the_greatest_products() {
    // wx × vy − wy × vx is 62 × 62 − 61 × 63 = 1, and the other way round −1.
    assert_eq!(ending(&[track(1, 100, 100, 63, 62), track(2, 163, 162, 62, 61)]), (1, 2, Right));
    assert_eq!(ending(&[track(1, 100, 100, 62, 61), track(2, 162, 161, 63, 62)]), (1, 2, Left));
    // 2 × 63 × 4095 and its opposite.
    assert_eq!(ending(&[track(1, 0, 1, 63, 63), wall(4, 0, 4095, 4095, 0)]), (3, 4, Right));
    assert_eq!(ending(&[track(1, 0, 1, 63, 63), wall(4, 4095, 0, 0, 4095)]), (3, 4, Left));
}

#[test]
fn the_last_byte_and_the_last_field() {
    let rows = rows(&[TIP, track(2, 200, 50, 0, 10), late(3, 4000, 100, 1, 0, 90), wall(4, 0, 300, 300, 300)]);
    let bytes = roll_bytes(&rows);
    assert_eq!(bytes.len(), rows.len() * Row::LENGTH);
    for (row, bytes) in rows.iter().zip(bytes.chunks(Row::LENGTH)) {
        assert_eq!(bytes.last(), Some(&row.side.number()));
        assert!(row.to_string().ends_with(&format!(" {} {} {}", row.x, row.y, row.side.number())));
    }
    assert_eq!(Side::ALL.map(Side::number), [0, 1, 2, 3]);
}
