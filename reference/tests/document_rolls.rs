//! The rolls of the starred sheets, of the examples with start times, and of the example about sides.

use reference::chosen::{document, late, sides};
use reference::roll::{roll, roll_bytes, Row};
use reference::sheet::{read, Records};

fn records(name: &str) -> Records {
    read(&document::sheet(name)).expect("accepted")
}

/// Rows as program `roll` prints them.
fn printed(name: &str) -> Vec<String> {
    roll(&records(name)).iter().map(Row::to_string).collect()
}

#[test]
fn sheet_a() {
    assert_eq!(printed("A"), ["1 1 2 10/1 12800 6400 1", "2 4 0 809/2 12800 262080 0"]);
}

#[test]
fn sheet_a_in_bytes() {
    let bytes = roll_bytes(&roll(&records("A")));
    let first = [1, 0, 1, 2, 0, 10, 0, 0, 0, 0, 0, 0, 0, 1, 0, 0, 0, 0, 0, 0, 0, 0x00, 0x32, 0, 0, 0x00, 0x19, 0, 0, 1];
    assert_eq!(bytes.len(), 2 * first.len());
    assert!(bytes.starts_with(&first));
    assert_eq!(bytes.last(), Some(&0));
}

#[test]
fn sheet_b() {
    assert_eq!(printed("B"), ["1 2 2 10/1 12800 6400 1", "2 2 1 10/1 12800 6400 2"]);
}

#[test]
fn sheet_c() {
    let rows = printed("C");
    assert_eq!(rows[0], "2 1 1 25/2 12800 6400 2");
    assert!(rows[1].starts_with("1 4 0 799/2 "));
}

#[test]
fn sheet_d() {
    let rows = printed("D");
    assert_eq!(rows.len(), 64);
    for (index, row) in rows.iter().enumerate() {
        // 1 starts on the left of all others.
        let (id, partner, side) = if index == 0 { (1, 2, 1) } else { (index + 1, 1, 2) };
        assert_eq!(*row, format!("{id} 2 {partner} 10/1 {} {} {side}", 320 * 64, 630 * 64));
    }
}

#[test]
fn sheet_e() {
    let first = ["1 1 2 10/1 12800 6400 1", "2 1 3 11/1 12800 12800 1"];
    assert_eq!(printed("E"), [first, ["3 1 4 11/1 6400 12800 1", "4 1 1 11/1 6400 6400 1"]].concat());
}

#[test]
fn sheet_f() {
    assert_eq!(printed("F"), ["2 3 1 5/1 19200 3200 2", "1 4 0 799/2 262080 6400 0"]);
}

#[test]
fn sheet_g() {
    assert_eq!(printed("G")[0], "1 1 2 10/1 12800 6400 3");
}

#[test]
fn sheet_h() {
    assert_eq!(printed("H"), ["1 3 1 10/1 12800 6400 1"]);
    assert_eq!(printed("H passed"), ["1 4 0 799/2 262080 6400 0"]);
}

#[test]
fn sheet_i() {
    assert_eq!(printed("I"), ["1 4 0 0/1 262080 320 0"]);
    assert_eq!(printed("I up"), ["1 4 0 4090/1 262080 262080 0"]);
}

#[test]
fn sheet_j() {
    assert_eq!(printed("J"), ["1 3 1 2/3 43 43 2"]);
}

#[test]
fn sheet_k() {
    assert!(printed("K").is_empty());
}

/// Rows of an example with start times.
fn printed_late(name: &str) -> Vec<String> {
    roll(&read(&late::example(name)).expect("accepted")).iter().map(Row::to_string).collect()
}

#[test]
fn sheet_opening() {
    let first = ["3 3 1 10/1 12800 6400 1", "1 1 3 30/1 9600 6400 2"];
    assert_eq!(printed_late("opening"), [first, ["2 3 2 35/1 16000 9600 2", "4 1 1 50/1 9600 6400 1"]].concat());
}

#[test]
fn sheet_behind() {
    let together = ["1 1 2 10/1 12800 6400 3", "3 2 4 10/1 12800 12800 3", "4 2 3 10/1 12800 12800 3"];
    let later = ["2 3 1 15/1 25600 6400 1", "6 1 5 15/1 12800 19200 3", "5 3 1 30/1 25600 19200 1"];
    assert_eq!(printed_late("behind"), [together, later].concat());
}

#[test]
fn sheet_late() {
    let first = ["3 2 4 10/1 12800 12800 1", "4 2 3 10/1 12800 12800 2"];
    assert_eq!(printed_late("late"), [first, ["1 4 0 20/1 0 6400 0", "2 1 1 40/1 0 6400 2"]].concat());
}

#[test]
fn sheet_sides() {
    let rows: Vec<_> = roll(&read(&sides::example()).expect("accepted")).iter().map(Row::to_string).collect();
    let at_walls = ["1 3 1 10/1 12800 6400 1", "2 3 2 10/1 12800 19200 2", "3 3 3 10/1 19200 25600 3"];
    // Where they meet a wall begins, but a track is named before it (SHEETS 4.9).
    let meeting = ["4 2 5 10/1 12800 32000 1", "5 2 4 10/1 12800 32000 2"];
    assert_eq!(rows, [&at_walls[..], &meeting].concat());
}
