//! The names of fissures.h and those here stand for the same numbers.

use fissures::{numbers, Place, Refusal, Row, Side, ENOUGH, ROW};
use fissures::{LONGEST_CELL, LONGEST_ENDS_SHP, LONGEST_ENDS_SHX, LONGEST_ROLL};
use fissures::{LONGEST_SHEET, LONGEST_TRACES_SHP, LONGEST_TRACES_SHX};
use std::collections::BTreeMap;

/// Each name of the header with its number: `#define NAME 1`, or `NAME = 1` in an enum.
fn header() -> BTreeMap<&'static str, u64> {
    let lines = include_str!("../fissures.h").lines();
    let parts = lines.flat_map(|line| line.split(['{', ',', '}']));
    parts.filter_map(name_and_number).collect()
}

fn name_and_number(part: &str) -> Option<(&str, u64)> {
    let part = part.trim();
    let (name, number) =
        part.strip_prefix("#define ").map_or_else(|| part.split_once(" = "), |rest| rest.split_once(' '))?;
    Some((name.strip_prefix("FISSURE_")?, number.parse().ok()?))
}

#[test]
fn same_numbers() {
    let here = [
        ("ACCEPTED", 0),
        ("UNKNOWN_COMMAND", Refusal::UNKNOWN_COMMAND),
        ("CUT_SHORT", Refusal::CUT_SHORT),
        ("AFTER_END", Refusal::AFTER_END),
        ("COORDINATE", Refusal::COORDINATE),
        ("SPEED", Refusal::SPEED),
        ("EQUAL_ENDS", Refusal::EQUAL_ENDS),
        ("TOO_MANY", Refusal::TOO_MANY),
        ("ID_USED", Refusal::ID_USED),
        ("START_USED", Refusal::START_USED),
        ("START_ON_WALL", Refusal::START_ON_WALL),
        ("UNUSED_11", Refusal::UNUSED_11),
        ("OUTPUT_TOO_SHORT", Refusal::OUTPUT_TOO_SHORT),
        ("GRID_FIGURE", Refusal::GRID_FIGURE),
        ("OUTSIDE_GRID", Refusal::OUTSIDE_GRID),
        ("TRACKS", Place::TRACKS),
        ("WALLS", Place::WALLS),
    ];
    let sides = [("NO_SIDE", Side::NoSide), ("LEFT", Side::Left), ("RIGHT", Side::Right), ("ALONG", Side::Along)];
    let lengths = [
        ("ROW", ROW),
        ("ROW_ID", Row::ID),
        ("ROW_KIND", Row::KIND),
        ("ROW_PARTNER", Row::PARTNER),
        ("ROW_NUM", Row::NUM),
        ("ROW_DEN", Row::DEN),
        ("ROW_X", Row::X),
        ("ROW_Y", Row::Y),
        ("ROW_SIDE", Row::SIDE),
        ("LONGEST_ROLL", LONGEST_ROLL),
        ("LONGEST_CELL", LONGEST_CELL),
        ("LONGEST_SHEET", LONGEST_SHEET),
        ("LONGEST_TRACES_SHP", LONGEST_TRACES_SHP),
        ("LONGEST_TRACES_SHX", LONGEST_TRACES_SHX),
        ("LONGEST_ENDS_SHP", LONGEST_ENDS_SHP),
        ("LONGEST_ENDS_SHX", LONGEST_ENDS_SHX),
        ("ENOUGH", ENOUGH),
        ("SESSION", numbers::SIZE),
    ];
    assert_eq!((LONGEST_SHEET, ENOUGH, LONGEST_ROLL), (5633, 5643, 7680));
    let lengths = lengths.map(|(name, length)| (name, length as u64));
    let sides = sides.map(|(name, side)| (name, side.number().into()));
    assert_eq!(header(), here.into_iter().chain(lengths).chain(sides).collect());
}

#[test]
fn sides_by_number() {
    assert_eq!(Side::ALL.map(Side::number), [0, 1, 2, 3]);
    for number in 0..=u8::MAX {
        let mut bytes = [7; ROW];
        bytes[Row::SIDE] = number;
        assert_eq!(Row(&bytes).side(), Side::ALL.get(usize::from(number)).copied());
        assert!(Row(&bytes).to_string().ends_with(&format!(" {number}")));
    }
}

#[test]
fn a_refusal_as_an_error() {
    let refusal = Refusal { number: Refusal::START_ON_WALL, place: 9 };
    let error: Box<dyn std::error::Error> = refusal.into();
    assert_eq!(error.to_string(), "refused 10 9");
    assert_eq!(refusal.meaning(), "a start point on a wall");
    assert_eq!(Refusal { number: 11, ..refusal }.meaning(), "unused: no call gives this number");
    assert_eq!(Refusal { number: 15, ..refusal }.meaning(), "no line of the table");
}
