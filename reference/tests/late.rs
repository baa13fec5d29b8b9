//! Tips that open later (SHEETS 4.1, 4.2, 4.5), worked out by hand.

use reference::chosen::{late, track, wall};
use reference::roll::{roll, roll_bytes, Row};
use reference::sheet::{listing, read, Command};

/// The lines of `roll`, without the points and the sides: id, kind, partner, time.
fn endings(commands: &[Command]) -> Vec<String> {
    let records = read(&listing(commands.iter().copied())).expect("accepted");
    let words = |row: &Row| row.to_string().rsplitn(4, ' ').last().expect("a row").to_string();
    roll(&records).iter().map(words).collect()
}

#[test]
fn a_time_is_one_of_the_sheet_and_not_an_age() {
    // 100 units to the wall, 10 a unit of time.
    let stop = wall(1, 200, 0, 200, 200);
    assert_eq!(endings(&[late(1, 100, 100, 10, 0, 30), stop]), ["1 3 1 40/1"]);
    assert_eq!(endings(&[late(1, 100, 100, 3, 0, 4095), stop]), ["1 3 1 12385/3"]);
    // Start times alone make the order of rows: ages 10 and 90.
    let rows = endings(&[late(1, 100, 100, 10, 0, 90), track(2, 110, 120, 1, 0), stop]);
    assert_eq!(rows, ["2 3 1 90/1", "1 3 1 100/1"]);
}

#[test]
fn the_greatest_time() {
    // Along the whole edge at the least speed, from the last start time on.
    assert_eq!(endings(&[late(1, 0, 7, 1, 0, 4095)]), ["1 4 0 8190/1"]);
}

#[test]
fn a_tip_that_opens_on_an_older_trace_ends_there() {
    // 1 is at (150, 100) at 5; 2 opens there.
    let with = |time| endings(&[track(1, 100, 100, 10, 0), late(2, 150, 100, 0, 10, time), wall(1, 0, 200, 4095, 200)]);
    assert_eq!(with(6), ["2 1 1 6/1", "1 4 0 799/2"]);
    assert_eq!(with(4095), ["1 4 0 799/2", "2 1 1 4095/1"]);
    assert_eq!(with(5), ["1 2 2 5/1", "2 2 1 5/1"]);
    assert_eq!(with(4), ["1 1 2 5/1", "2 3 1 14/1"]);
}

#[test]
fn nothing_is_where_a_tip_would_have_come() {
    // 1 ends at 10 at (200, 100): on its trace, at its end point, and beyond it.
    let (old, stop) = (track(1, 100, 100, 10, 0), wall(1, 200, 100, 200, 300));
    let with = |x| endings(&[old, stop, late(2, x, 100, 0, -10, 30)]);
    assert_eq!(with(199), ["1 3 1 10/1", "2 1 1 30/1"]);
    assert_eq!(with(201), ["1 3 1 10/1", "2 4 0 40/1"]);
}

#[test]
fn a_tip_behind_another_on_one_line() {
    // 1 comes to the start of 2 at 10.
    let stop = wall(1, 300, 0, 300, 200);
    let with = |time| endings(&[track(1, 100, 100, 10, 0), late(2, 200, 100, 5, 0, time), stop]);
    assert_eq!(with(0), ["1 1 2 10/1", "2 3 1 20/1"]);
    assert_eq!(with(9), ["1 1 2 10/1", "2 3 1 29/1"]);
    assert_eq!(with(10), ["1 2 2 10/1", "2 2 1 10/1"]);
    assert_eq!(with(11), ["2 1 1 11/1", "1 3 1 20/1"]);
    assert_eq!(with(4000), ["1 3 1 20/1", "2 1 1 4000/1"]);
    // One that ends on the way stops nobody.
    let before = wall(2, 150, 0, 150, 200);
    let rows = endings(&[track(1, 100, 100, 10, 0), late(2, 200, 100, 5, 0, 11), stop, before]);
    assert_eq!(rows, ["1 3 2 5/1", "2 3 1 31/1"]);
}

#[test]
fn equal_times_of_different_ages() {
    // Both at (200, 200) at 10, with ages 10 and 5; one unit of time earlier or later, not.
    let with = |time| endings(&[track(1, 100, 200, 10, 0), late(2, 200, 150, 0, 10, time), wall(1, 0, 300, 4095, 300)]);
    assert_eq!(with(5), ["1 2 2 10/1", "2 2 1 10/1"]);
    assert_eq!(with(4), ["1 1 2 10/1", "2 3 1 19/1"]);
    assert_eq!(with(6), ["2 1 1 11/1", "1 4 0 799/2"]);
}

#[test]
fn a_tip_that_ends_as_it_opens_stops_others() {
    // 1 leaves over the edge as it opens, at (0, 100); 2 runs down the edge and comes there at 20.
    let with = |time| endings(&[late(1, 0, 100, -10, 0, time), track(2, 0, 300, 0, -10)]);
    assert_eq!(with(19), ["1 4 0 19/1", "2 1 1 20/1"]);
    assert_eq!(with(20), ["1 2 2 20/1", "2 2 1 20/1"]);
    assert_eq!(with(21), ["1 1 2 21/1", "2 4 0 30/1"]);
}

#[test]
fn a_tip_on_the_edge_that_would_leave_ends_at_its_start_time() {
    assert_eq!(endings(&[late(1, 4095, 5, 1, 0, 77)]), ["1 4 0 77/1"]);
    assert_eq!(endings(&[late(1, 4095, 5, 0, 1, 77)]), ["1 4 0 4167/1"]);
}

#[test]
fn start_time_0_by_03_is_as_by_01() {
    let rolled = |first: Command| {
        let records = read(&listing([first, late(2, 200, 50, 0, 10, 3)])).expect("accepted");
        roll_bytes(&roll(&records))
    };
    assert_eq!(rolled(late(1, 100, 100, 10, 0, 0)), rolled(track(1, 100, 100, 10, 0)));
}
