//! Listings: there and back, and errors that name the line or the place.

mod common;

use common::{example, run, NAMES};
use reference::sheet::listing as bytes;
use sheet_tools::{listing, sheet};

const TEXT: &str = env!("CARGO_BIN_EXE_sheet-text");

#[test]
fn examples_there_and_back() {
    for name in NAMES {
        let sheet = example(&format!("{name}.sheet"));
        let listing = run(TEXT, &["to-text"], &sheet).unwrap();
        assert_eq!(listing, example(&format!("{name}.listing")), "{name}");
        assert_eq!(run(TEXT, &["to-sheet"], &listing).unwrap(), sheet, "{name}");
    }
}

#[test]
fn document_lines() {
    let text = b"# A, and F's wall\n\n track 1 at 100 100 speed 10 0 # first\r\n\
        wall 1 from 250 50 to 350 50";
    let bytes = bytes(listing::parse(text).unwrap());
    let track = [1, 1, 0, 100, 0, 100, 0, 10, 0];
    let wall = [2, 1, 0, 250, 0, 50, 0, 94, 1, 50, 0];
    assert_eq!(bytes, [&track[..], &wall[..], &[0]].concat());
}

#[test]
fn a_start_makes_a_track_by_03() {
    let text = b"track 1 at 100 100 speed 10 0 start 30\ntrack 2 at 100 200 speed 10 0 start 0\n";
    let first = [3, 1, 0, 100, 0, 100, 0, 10, 0, 30, 0];
    let second = [3, 2, 0, 100, 0, 200, 0, 10, 0, 0, 0];
    let sheet = [&first[..], &second[..], &[0]].concat();
    assert_eq!(run(TEXT, &["to-sheet"], text).unwrap(), sheet);
    assert_eq!(run(TEXT, &["to-text"], &sheet).unwrap(), text);
}

#[test]
fn widths_are_the_only_limits() {
    let text = "track 65535 at 5000 65535 speed -128 127 start 65535\ntrack 65535 at 5000 65535 speed 0 0\n";
    let commands = listing::parse(text.as_bytes()).unwrap();
    let back = sheet::from_bytes(&bytes(commands)).unwrap();
    assert_eq!(listing::print(&back), text);
}

#[test]
fn wrong_lines_are_named() {
    let cases = [
        ("\ntrack 65536 at 0 0 speed 1 1", "line 2: id: 65536 is not in 0 to 65535"),
        ("track -1 at 0 0 speed 1 1", "line 1: id: -1 is not in 0 to 65535"),
        ("track 1 at 0 0 speed 1 128", "line 1: vy: 128 is not in -128 to 127"),
        ("track 1 at 0 0 speed -129 1", "line 1: vx: -129 is not in -128 to 127"),
        ("# a\n\nwall 1 from 1 2 to 3 99999999999999999999", "line 3: by: 99999999999999999999 is not in 0 to 65535"),
        ("track 1 at 0x1 0 speed 1 1", "line 1: x: '0x1' is not a decimal number"),
        ("track 1 at +1 0 speed 1 1", "line 1: x: '+1' is not a decimal number"),
        ("track 1 at 0 0 speed 1 1 start 65536", "line 1: start: 65536 is not in 0 to 65535"),
        ("track 1 at 0 0 speed 1 1 start -1", "line 1: start: -1 is not in 0 to 65535"),
        ("track 1 at 0 0 speed 1", "line 1: a track is written: track ID at X Y speed VX VY [start TIME]"),
        ("track 1 at 0 0 speed 1 1 start", "line 1: a track is written: track ID at X Y speed VX VY [start TIME]"),
        ("track 1 at 0 0 speed 1 1 from 3", "line 1: a track is written: track ID at X Y speed VX VY [start TIME]"),
        ("wall 1 at 0 0 to 1 1", "line 1: a wall is written: wall ID from AX AY to BX BY"),
        ("edge 1", "line 1: 'edge' is neither track nor wall"),
    ];
    for (text, wrong) in cases {
        let said = run(TEXT, &["to-sheet"], text.as_bytes()).unwrap_err();
        assert_eq!(said, format!("sheet-text: {wrong}\n"));
    }
    assert_eq!(listing::parse(b"\n\xff").unwrap_err(), "line 2: not UTF-8");
}

#[test]
fn wrong_places_are_named() {
    let track = [1, 1, 0, 100, 0, 100, 0, 10, 0];
    let cases: [(&[u8], &str); 6] = [
        (&[], "place 9: no end command 00"),
        (&[4], "place 9: byte 04 is no command"),
        (&[3, 0, 0, 0, 0, 0, 0, 0, 0, 0], "place 9: operands cut short"),
        (&[2, 0, 0, 0, 0, 0, 0, 0, 0, 0], "place 9: operands cut short"),
        (&[1, 0, 0, 0, 0, 0, 0, 0], "place 9: operands cut short"),
        (&[0, 0], "place 10: bytes after the end command"),
    ];
    for (rest, wrong) in cases {
        let said = run(TEXT, &["to-text"], &[&track, rest].concat()).unwrap_err();
        assert_eq!(said, format!("sheet-text: {wrong}\n"));
    }
}

#[test]
fn usage_without_a_direction() {
    assert!(run(TEXT, &[], b"").unwrap_err().contains("usage"));
}
