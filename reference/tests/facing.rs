//! Tips that face each other (SHEETS 4.15), worked out by hand.

use reference::cells::count;
use reference::chosen::{facing, late, track, wall};
use reference::roll::{roll, Row};
use reference::sheet::{listing, read, Command, Records, Track};

fn rolled(sheet: &[u8]) -> Vec<String> {
    roll(&read(sheet).expect("accepted")).iter().map(Row::to_string).collect()
}

/// The lines of `roll` without the points: id, kind, partner, time and side.
fn endings(commands: &[Command]) -> Vec<String> {
    let without_point = |line: String| {
        let words: Vec<&str> = line.split(' ').collect();
        [&words[..4], &words[6..]].concat().join(" ")
    };
    rolled(&listing(commands.iter().copied())).into_iter().map(without_point).collect()
}

/// At (t, 0) at time t.
const RIGHT: Command = Command::Track(Track { id: 1, x: 0, y: 0, vx: 1, vy: 0, start_time: 0 });
/// At (10 − t, 0) at time t.
const LEFT: Command = Command::Track(Track { id: 2, x: 10, y: 0, vx: -1, vy: 0, start_time: 0 });

#[test]
fn the_sheets_of_document_02() {
    let [(_, meet), (_, stopped)] = facing::document();
    assert_eq!(rolled(&meet), ["1 2 2 2/1 128 0 3", "2 2 1 2/1 128 0 3"]);
    assert_eq!(rolled(&stopped), ["2 3 1 2/1 512 0 2", "1 1 2 8/1 512 0 3"]);
}

#[test]
fn they_meet_between_their_starts() {
    assert_eq!(endings(&[RIGHT, LEFT]), ["1 2 2 5/1 3", "2 2 1 5/1 3"]);
    assert_eq!(endings(&[RIGHT, track(0, 7, 0, -3, 0)]), ["0 2 1 7/4 3", "1 2 0 7/4 3"]);
    // 60 units of (−4, 6)/2 apart, at 2 and 1 of these a unit of time.
    assert_eq!(endings(&[track(1, 300, 90, -4, 6), track(2, 180, 270, 2, -3)]), ["1 2 2 20/1 3", "2 2 1 20/1 3"]);
    assert_eq!(endings(&[track(1, 0, 0, 63, 63), track(2, 4095, 4095, -62, -62)])[0], "1 2 2 819/25 3");
}

#[test]
fn one_line_it_has_to_be() {
    assert_eq!(endings(&[RIGHT, track(2, 10, 1, -1, 0)]), ["2 4 0 10/1 0", "1 4 0 4095/1 0"]);
    assert_eq!(endings(&[track(1, 5, 0, -1, 0), track(2, 9, 0, 1, 0)]), ["1 4 0 5/1 0", "2 4 0 4086/1 0"]);
}

#[test]
fn where_a_wall_had_ended_the_other_that_one_is_named() {
    assert_eq!(endings(&[RIGHT, LEFT, wall(0, 8, 0, 8, 5)]), ["2 3 0 2/1 2", "1 1 2 8/1 3"]);
    assert_eq!(endings(&[RIGHT, LEFT, wall(0, 9, 1, 7, 0)]), ["2 3 0 3/1 1", "1 1 2 7/1 3"]);
    // A wall along the line keeps 1 from coming to the end of 2.
    assert_eq!(endings(&[RIGHT, LEFT, wall(0, 8, 0, 7, 0)]), ["2 3 0 2/1 3", "1 3 0 7/1 3"]);
    // Both come to the wall together: a meeting, and no wall is named.
    assert_eq!(endings(&[RIGHT, LEFT, wall(0, 5, 0, 5, 1)]), ["1 2 2 5/1 3", "2 2 1 5/1 3"]);
    // Each has a wall of its own.
    let rows = endings(&[RIGHT, LEFT, wall(0, 3, 0, 3, 1), wall(1, 6, 0, 6, 1)]);
    assert_eq!(rows, ["1 3 0 3/1 1", "2 3 1 4/1 2"]);
}

#[test]
fn where_a_trace_had_ended_the_other_the_smaller_id_is_named() {
    // It comes down to (8, 0) and leaves over the edge, so long after 0. 2 comes there at 2.
    let down = |id, time| track(id, 8, time, 0, -1);
    assert_eq!(endings(&[RIGHT, LEFT, down(3, 1)]), ["3 4 0 1/1 0", "2 1 3 2/1 1", "1 1 2 8/1 3"]);
    assert_eq!(endings(&[RIGHT, LEFT, down(0, 1)]), ["0 4 0 1/1 0", "2 1 0 2/1 1", "1 1 0 8/1 2"]);
    // Together with 2, whose ending is then a meeting; that of 1 is not.
    assert_eq!(endings(&[RIGHT, LEFT, down(3, 2)]), ["2 2 3 2/1 1", "3 2 2 2/1 2", "1 1 2 8/1 3"]);
    assert_eq!(endings(&[RIGHT, LEFT, down(0, 2)]), ["0 2 2 2/1 2", "2 2 0 2/1 1", "1 1 0 8/1 2"]);
    // After 2, on whose trace it ends: 1 and 2 meet as ever.
    assert_eq!(endings(&[RIGHT, LEFT, down(0, 3)]), ["0 1 2 3/1 2", "1 2 2 5/1 3", "2 2 1 5/1 3"]);
}

#[test]
fn a_third_comes_to_the_end_of_the_other_just_then() {
    // A wall ends 2 at (8, 0) at 2; 1 and another come there at 8. The smallest id decides: a meeting, or not.
    let with = |id| endings(&[RIGHT, LEFT, wall(7, 8, 0, 8, 1), track(id, 0, 8, 1, -1)]);
    assert_eq!(with(0), ["2 3 7 2/1 2", "0 2 1 8/1 1", "1 2 0 8/1 2"]);
    assert_eq!(with(3), ["2 3 7 2/1 2", "1 1 2 8/1 3", "3 2 1 8/1 1"]);
}

#[test]
fn a_late_one_opens_on_the_trace_of_the_other() {
    // 1 is at (6, 0) at 6.
    let with = |time| endings(&[RIGHT, late(2, 6, 0, -1, 0, time), wall(1, 20, 0, 20, 1)]);
    assert_eq!(with(0), ["1 2 2 3/1 3", "2 2 1 3/1 3"]);
    assert_eq!(with(5), ["1 2 2 11/2 3", "2 2 1 11/2 3"]);
    assert_eq!(with(6), ["1 2 2 6/1 3", "2 2 1 6/1 3"]);
    assert_eq!(with(7), ["2 1 1 7/1 3", "1 3 1 20/1 1"]);
    assert_eq!(with(4000), ["1 3 1 20/1 1", "2 1 1 4000/1 3"]);
}

#[test]
fn a_late_one_comes_to_the_end_of_the_other() {
    // A wall ends 1 at (4, 0) at 4; 2 starts at (6, 0), or at the wall's other side.
    let stop = wall(0, 4, 0, 4, 3);
    let with = |x, time| endings(&[RIGHT, late(2, x, 0, -2, 0, time), stop])[1].clone();
    assert_eq!(with(6, 7), "2 1 1 8/1 3");
    assert_eq!(with(6, 5), "2 1 1 6/1 3");
    // They come to the wall together.
    assert_eq!(with(6, 3), "2 2 1 4/1 3");
    assert_eq!(with(5, 4000), "2 1 1 8001/2 3");
    // Before: 2 ends on the wall, and 1 on 2.
    assert_eq!(endings(&[RIGHT, late(2, 6, 0, -2, 0, 2), stop]), ["2 3 0 3/1 2", "1 1 2 4/1 3"]);
}

#[test]
fn an_end_that_moves_the_ends_of_others() {
    // 4 stops 2 at (8, 0), where 1 comes. With a wall that ends 4 before, 1 and 2 meet.
    let (down, stop) = (track(4, 8, 3, 0, -3), wall(1, 7, 2, 9, 2));
    assert_eq!(endings(&[RIGHT, LEFT, down]), ["4 4 0 1/1 0", "2 1 4 2/1 1", "1 1 2 8/1 3"]);
    assert_eq!(endings(&[RIGHT, LEFT, down, stop]), ["4 3 1 1/3 1", "1 2 2 5/1 3", "2 2 1 5/1 3"]);
}

#[test]
fn others_on_the_line() {
    // 3 is ahead of 1 and meets 2 at (7, 0); 1 comes to its start.
    assert_eq!(endings(&[RIGHT, LEFT, track(3, 4, 0, 1, 0)]), ["2 2 3 3/1 3", "3 2 2 3/1 3", "1 1 3 4/1 3"]);
    // It opens at 4 as 1 comes, and both end there; 2 comes to that place, and 1 is named before 3.
    assert_eq!(endings(&[RIGHT, LEFT, late(3, 4, 0, 1, 0, 4)]), ["1 2 3 4/1 3", "3 2 1 4/1 3", "2 1 1 6/1 3"]);
    // It opens on the trace of 1.
    assert_eq!(endings(&[RIGHT, LEFT, late(3, 4, 0, 1, 0, 9)]), ["1 2 2 5/1 3", "2 2 1 5/1 3", "3 1 1 9/1 3"]);
    // Behind 2 another: it ends at the start of 2.
    assert_eq!(endings(&[RIGHT, LEFT, track(3, 13, 0, -1, 0)])[0], "3 1 2 3/1 3");
}

#[test]
fn one_that_ends_as_it_opens_stops_the_other() {
    // 3 passes (7, 0) at 1. 2 opens there at 5, and 1 comes at 7.
    let old = |id| track(id, 7, 1, 0, -1);
    assert_eq!(endings(&[RIGHT, late(2, 7, 0, -1, 0, 5), old(3)])[1..], ["2 1 3 5/1 1", "1 1 2 7/1 3"]);
    assert_eq!(endings(&[RIGHT, late(2, 7, 0, -1, 0, 5), old(0)])[1..], ["2 1 0 5/1 1", "1 1 0 7/1 2"]);
    // Just as 1 comes: for both 3 is there already.
    assert_eq!(endings(&[RIGHT, late(2, 7, 0, -1, 0, 7), old(3)])[1..], ["1 2 2 7/1 3", "2 2 1 7/1 3"]);
    assert_eq!(endings(&[RIGHT, late(2, 7, 0, -1, 0, 7), old(0)])[1..], ["1 1 0 7/1 2", "2 1 0 7/1 1"]);
}

#[test]
fn at_the_edge() {
    // 1 comes to the border at 10, where another starts and comes back.
    let with = |time| endings(&[track(1, 4085, 9, 1, 0), late(2, 4095, 9, -1, 0, time)]);
    assert_eq!(with(0), ["1 2 2 5/1 3", "2 2 1 5/1 3"]);
    assert_eq!(with(9), ["1 2 2 19/2 3", "2 2 1 19/2 3"]);
    assert_eq!(with(10), ["1 2 2 10/1 3", "2 2 1 10/1 3"]);
    assert_eq!(with(11), ["1 4 0 10/1 0", "2 1 1 11/1 3"]);
}

#[test]
fn cells_of_traces_that_end_at_each_other() {
    // They meet on x = 2048, which belongs to the right-hand cell: two traces in it, one in the left-hand cell.
    let meeting = [track(1, 2038, 100, 10, 0), track(2, 2058, 100, -10, 0)];
    let records = Records::of(&meeting);
    assert_eq!([1, 2, 4].map(|figure| count(&records, &roll(&records), figure)), [2, 3, 3]);
    // 2 ends one unit further to the left, and 1 there: each in its half, and 2 in both.
    let late = [late(1, 2037, 100, 10, 0, 1), track(2, 2058, 100, -11, 0), wall(1, 2047, 100, 2047, 90)];
    let records = Records::of(&late);
    assert_eq!([1, 2, 4].map(|figure| count(&records, &roll(&records), figure)), [2, 3, 3]);
}

#[test]
fn the_example() {
    let lines = [
        "1 2 2 2/1 7680 6400 3",
        "2 2 1 2/1 7680 6400 3",
        "4 3 1 2/1 11520 9600 2",
        "8 1 9 4/1 10240 20480 2",
        "7 1 8 6/1 10240 20480 3",
        "9 3 3 7/1 10240 23680 2",
        "3 1 4 8/1 11520 9600 3",
        "6 1 5 8/1 9600 16000 3",
        "5 3 2 12/1 14080 16000 1",
    ];
    assert_eq!(rolled(&facing::example()), lines);
}
