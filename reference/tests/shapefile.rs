//! The shapefiles (SHEETS 12): four sheets byte by byte, and a reader that finds the roll's points in them.

use reference::chosen::{document, late, track, wall};
use reference::frames::{self, Frame};
use reference::made_up;
use reference::roll::{roll, Ending, Row, Side};
use reference::shapefile::{bounds, files, index_file, main_file, shapes, Bounds, Layer, Point, Shape};
use reference::sheet::{listing, read, Command, Records};

/// Words of hexadecimal digits, one behind the other.
fn hexadecimal(lines: &[&str]) -> Vec<u8> {
    let digits = lines.concat().replace(' ', "");
    let byte = |at: usize| u8::from_str_radix(&digits[at..at + 2], 16).expect("two digits");
    (0..digits.len()).step_by(2).map(byte).collect()
}

/// File code, five zeros, and the length in words.
fn front(length: &str) -> String {
    ["0000270a 00000000 00000000 00000000 00000000 00000000", length].concat()
}

/// Version and shape type.
const POLY_LINES: &str = "e8030000 03000000";
const POINTS: &str = "e8030000 01000000";
/// A box of zeros is as long as the Z and M ranges.
const ZEROS: &str = "0000000000000000 0000000000000000 0000000000000000 0000000000000000";

/// The four files of a sheet.
fn written(sheet: &[u8]) -> [Vec<u8>; 4] {
    let records = read(sheet).expect("accepted");
    files(&records, &roll(&records))
}

#[test]
fn sheet_a() {
    let [traces, traces_index, ends, ends_index] = written(&document::sheet("A"));
    // 100 to 200, 50 to 4095.
    let bounds = "0000000000005940 0000000000004940 0000000000006940 0000000000feaf40";
    let expected = [
        &front("0000008a"),
        POLY_LINES,
        bounds,
        ZEROS,
        // Record 1, 40 words: the box 100, 100, 200, 100; from (100, 100) to (200, 100).
        "00000001 00000028 03000000",
        "0000000000005940 0000000000005940 0000000000006940 0000000000005940",
        "01000000 02000000 00000000",
        "0000000000005940 0000000000005940 0000000000006940 0000000000005940",
        // Record 2: the box 200, 50, 200, 4095; from (200, 50) to (200, 4095).
        "00000002 00000028 03000000",
        "0000000000006940 0000000000004940 0000000000006940 0000000000feaf40",
        "01000000 02000000 00000000",
        "0000000000006940 0000000000004940 0000000000006940 0000000000feaf40",
    ];
    assert_eq!(traces, hexadecimal(&expected));
    let entries = "00000032 00000028 0000005e 00000028";
    assert_eq!(traces_index, hexadecimal(&[&front("0000003a"), POLY_LINES, bounds, ZEROS, entries]));
    // 200 to 200, 100 to 4095.
    let bounds = "0000000000006940 0000000000005940 0000000000006940 0000000000feaf40";
    let first = "00000001 0000000a 01000000 0000000000006940 0000000000005940";
    let second = "00000002 0000000a 01000000 0000000000006940 0000000000feaf40";
    assert_eq!(ends, hexadecimal(&[&front("0000004e"), POINTS, bounds, ZEROS, first, second]));
    let entries = "00000032 0000000a 00000040 0000000a";
    assert_eq!(ends_index, hexadecimal(&[&front("0000003a"), POINTS, bounds, ZEROS, entries]));
}

#[test]
fn no_track() {
    for commands in [vec![], vec![wall(1, 2, 3, 4, 5)]] {
        let [traces, traces_index, ends, ends_index] = written(&listing(commands));
        let empty = |layer| hexadecimal(&[&front("00000032"), layer, ZEROS, ZEROS]);
        assert_eq!((traces, ends), (empty(POLY_LINES), empty(POINTS)));
        assert_eq!((traces_index, ends_index), (empty(POLY_LINES), empty(POINTS)));
    }
}

#[test]
fn one_null_trace() {
    // The tip stands on the border and goes out.
    let [traces, traces_index, ends, ends_index] = written(&document::sheet("I"));
    let record = "00000001 00000002 00000000";
    assert_eq!(traces, hexadecimal(&[&front("00000038"), POLY_LINES, ZEROS, ZEROS, record]));
    let entry = "00000032 00000002";
    assert_eq!(traces_index, hexadecimal(&[&front("00000036"), POLY_LINES, ZEROS, ZEROS, entry]));
    // Its end is a point all the same: (4095, 5).
    let bounds = "0000000000feaf40 0000000000001440 0000000000feaf40 0000000000001440";
    let record = "00000001 0000000a 01000000 0000000000feaf40 0000000000001440";
    assert_eq!(ends, hexadecimal(&[&front("00000040"), POINTS, bounds, ZEROS, record]));
    let entry = "00000032 0000000a";
    assert_eq!(ends_index, hexadecimal(&[&front("00000036"), POINTS, bounds, ZEROS, entry]));
}

/// The roll is 9, 4, 7: at 3 on the wall at (130, 100), at 5 in the corner as it opens, at 64/3 on the edge at
/// (0, 32/3).
fn null_in_the_middle() -> Vec<u8> {
    let (null, falling) = (late(4, 4095, 4095, 1, 0, 5), track(7, 64, 32, -3, -1));
    listing([null, falling, track(9, 100, 100, 10, 0), wall(1, 130, 90, 130, 110)])
}

#[test]
fn null_trace_in_the_middle() {
    let [traces, traces_index, ends, ends_index] = written(&null_in_the_middle());
    // 0 to 130, 683/64 to 100: the corner is not in it.
    let bounds = "0000000000000000 0000000000582540 0000000000406040 0000000000005940";
    let expected = [
        &front("00000090"),
        POLY_LINES,
        bounds,
        ZEROS,
        // From (100, 100) to (130, 100).
        "00000001 00000028 03000000",
        "0000000000005940 0000000000005940 0000000000406040 0000000000005940",
        "01000000 02000000 00000000",
        "0000000000005940 0000000000005940 0000000000406040 0000000000005940",
        "00000002 00000002 00000000",
        // From (64, 32) to (0, 683/64): the least of the box are those of the end.
        "00000003 00000028 03000000",
        "0000000000000000 0000000000582540 0000000000005040 0000000000004040",
        "01000000 02000000 00000000",
        "0000000000005040 0000000000004040 0000000000000000 0000000000582540",
    ];
    assert_eq!(traces, hexadecimal(&expected));
    let entries = "00000032 00000028 0000005e 00000002 00000064 00000028";
    assert_eq!(traces_index, hexadecimal(&[&front("0000003e"), POLY_LINES, bounds, ZEROS, entries]));
    // 0 to 4095, 683/64 to 4095.
    let bounds = "0000000000000000 0000000000582540 0000000000feaf40 0000000000feaf40";
    let first = "00000001 0000000a 01000000 0000000000406040 0000000000005940";
    let second = "00000002 0000000a 01000000 0000000000feaf40 0000000000feaf40";
    let third = "00000003 0000000a 01000000 0000000000000000 0000000000582540";
    assert_eq!(ends, hexadecimal(&[&front("0000005c"), POINTS, bounds, ZEROS, first, second, third]));
    let entries = "00000032 0000000a 00000040 0000000a 0000004e 0000000a";
    assert_eq!(ends_index, hexadecimal(&[&front("0000003e"), POINTS, bounds, ZEROS, entries]));
}

/// Whole numbers at a place, high byte first or low byte first.
fn big(file: &[u8], at: usize) -> u32 {
    u32::from_be_bytes(*file[at..].first_chunk().expect("4 bytes"))
}

fn little(file: &[u8], at: usize) -> u32 {
    u32::from_le_bytes(*file[at..].first_chunk().expect("4 bytes"))
}

/// The double at a place, as a whole number of 64ths: from its exponent and fraction, in whole numbers.
fn in_64ths(file: &[u8], at: usize) -> u32 {
    let bits = u64::from_le_bytes(*file[at..].first_chunk().expect("8 bytes"));
    if bits == 0 {
        return 0;
    }
    let (exponent, fraction) = (bits >> 52, bits & ((1 << 52) - 1) | 1 << 52);
    let down = 1023 + 52 - 6 - u32::try_from(exponent).expect("11 bits and no sign");
    assert_eq!(fraction.trailing_zeros().min(down), down, "a part of a 64th");
    (fraction >> down) as u32
}

fn point(file: &[u8], at: usize) -> Point {
    Point { x: in_64ths(file, at), y: in_64ths(file, at + 8) }
}

fn bounds_at(file: &[u8], at: usize) -> Bounds {
    Bounds { least: point(file, at), greatest: point(file, at + 16) }
}

/// A file's box, after a look at the rest of its header.
fn header(layer: Layer, file: &[u8]) -> Bounds {
    let shape_type = if layer == Layer::Traces { 3 } else { 1 };
    assert_eq!((big(file, 0), big(file, 24)), (9994, file.len() as u32 / 2));
    assert_eq!((little(file, 28), little(file, 32)), (1000, shape_type));
    assert!(file[4..24].iter().chain(&file[68..100]).all(|byte| *byte == 0));
    bounds_at(file, 36)
}

/// A record's shape from its content, and the box that it gives.
fn shape(content: &[u8]) -> (Shape, Option<Bounds>) {
    match (little(content, 0), content.len()) {
        (0, 4) => (Shape::Null, None),
        (1, 20) => (Shape::End(point(content, 4)), None),
        (3, 80) => {
            assert_eq!([36, 40, 44].map(|at| little(content, at)), [1, 2, 0], "parts, points, first point");
            (Shape::Trace { start: point(content, 48), end: point(content, 64) }, Some(bounds_at(content, 4)))
        }
        other => panic!("shape type and length {other:?}"),
    }
}

/// The shapes and the box of a main file. Its index file must lead to all records, which leave no gap.
fn read_back(layer: Layer, main: &[u8], index: &[u8]) -> (Vec<Shape>, Bounds) {
    let whole = header(layer, main);
    assert_eq!(header(layer, index), whole);
    let (mut at, mut shapes) = (100, Vec::new());
    for (entry, number) in index[100..].chunks(8).zip(1..) {
        let length = 2 * big(entry, 4) as usize;
        assert_eq!(2 * big(entry, 0) as usize, at);
        assert_eq!((big(main, at), 2 * big(main, at + 4) as usize), (number, length));
        let (shape, bounds) = shape(&main[at + 8..at + 8 + length]);
        assert!(bounds.is_none_or(|bounds| bounds == Bounds::of(&shape.points())));
        shapes.push(shape);
        at += 8 + length;
    }
    assert_eq!(at, main.len());
    (shapes, whole)
}

/// Least and greatest of each coordinate, by sorting.
fn box_by_sorting(shapes: &[Shape]) -> Bounds {
    let points: Vec<Point> = shapes.iter().flat_map(|shape| shape.points()).collect();
    let sorted = |of: fn(&Point) -> u32| {
        let mut all: Vec<u32> = points.iter().map(of).collect();
        all.sort();
        (all.first().copied().unwrap_or(0), all.last().copied().unwrap_or(0))
    };
    let (x, y) = (sorted(|point| point.x), sorted(|point| point.y));
    Bounds { least: Point { x: x.0, y: y.0 }, greatest: Point { x: x.1, y: y.1 } }
}

/// The files hold, in the roll's order, the starts from the sheet and the ends from the roll.
fn check(records: &Records) {
    let rows = roll(records);
    let [traces, traces_index, ends, ends_index] = files(records, &rows);
    let (ends, ends_box) = read_back(Layer::Ends, &ends, &ends_index);
    let (traces, traces_box) = read_back(Layer::Traces, &traces, &traces_index);
    assert_eq!((ends.len(), traces.len()), (rows.len(), rows.len()));
    for ((row, trace), end) in rows.iter().zip(&traces).zip(&ends) {
        let (to, track) = (Point { x: row.x, y: row.y }, records.tracks.iter().find(|track| track.id == row.id));
        let from = track.map(|track| Point { x: u32::from(track.x) * 64, y: u32::from(track.y) * 64 });
        let from = from.expect("a row's track");
        assert_eq!(*end, Shape::End(to));
        assert_eq!(*trace, if from == to { Shape::Null } else { Shape::Trace { start: from, end: to } });
    }
    assert_eq!((ends_box, traces_box), (box_by_sorting(&ends), box_by_sorting(&traces)));
    assert_eq!((ends_box, traces_box), (bounds(&ends), bounds(&traces)));
}

#[test]
fn all_accepted_sheets() {
    let mut accepted = 0;
    for frame in frames::all(1) {
        let records = match frame {
            Frame::Sheet(sheet) => read(&sheet),
            Frame::Records(handed_in) => handed_in.check(),
            Frame::Lookup(_) => continue,
        };
        accepted += usize::from(records.as_ref().is_ok_and(|records| !records.tracks.is_empty()));
        records.iter().for_each(check);
    }
    assert!(accepted > 9000);
}

#[test]
fn null_shapes_occur_often_and_everywhere() {
    let (mut alone, mut first, mut between, mut last) = (0, 0, 0, 0);
    let sheets = [reference::chosen::all(), made_up::all(1)].concat();
    for records in sheets.iter().filter_map(|sheet| read(sheet).ok()) {
        let shapes = shapes(Layer::Traces, &records, &roll(&records));
        let null: Vec<bool> = shapes.iter().map(|shape| *shape == Shape::Null).collect();
        match (null.iter().position(|null| !null), null.iter().rposition(|null| !null)) {
            (Some(from), Some(to)) => {
                first += usize::from(from > 0);
                last += usize::from(to + 1 < null.len());
                between += usize::from(null[from..to].contains(&true));
            }
            _ => alone += usize::from(!null.is_empty()),
        }
    }
    assert!([alone, first, between, last].iter().all(|count| *count > 100), "{alone} {first} {between} {last}");
}

#[test]
fn every_number_of_64ths_is_exact() {
    let time = reference::fraction::Fraction::ZERO;
    let row = |n| Row { id: 0, ending: Ending::Edge, time, x: n, y: 262080 - n, side: Side::NoSide };
    let all: Vec<u32> = (0..=262080).collect();
    for part in all.chunks(256) {
        let rows: Vec<Row> = part.iter().copied().map(row).collect();
        let file = main_file(Layer::Ends, &Records::default(), &rows);
        let [least, greatest] = [part[0], part[part.len() - 1]];
        let corners = [(least, 262080 - greatest), (greatest, 262080 - least)].map(|(x, y)| Point { x, y });
        assert_eq!(bounds_at(&file, 36), Bounds { least: corners[0], greatest: corners[1] });
        for (n, record) in part.iter().zip(file[100..].chunks(28)) {
            assert_eq!(point(record, 12), Point { x: *n, y: 262080 - n });
            let x = f64::from_le_bytes(*record[12..].first_chunk().expect("8 bytes"));
            assert_eq!(x, f64::from(*n) * 0.015625);
        }
    }
}

/// The x of each end point in units, in the order of the records.
fn ends_x(commands: &[Command]) -> Vec<u32> {
    let records = read(&listing(commands.iter().copied())).expect("accepted");
    let shapes = shapes(Layer::Ends, &records, &roll(&records));
    shapes.iter().map(|shape| shape.points()[0].x / 64).collect()
}

#[test]
fn records_stand_in_the_order_of_the_roll() {
    // They end at 30, 10, 20 and 10; neither ids nor lines of the sheet rise with this.
    let tips = [track(1, 100, 10, 0, 1), track(9, 200, 30, 0, 1), track(3, 300, 20, 0, 1), track(5, 400, 30, 0, 1)];
    let stop = wall(1, 0, 40, 4095, 40);
    assert_eq!(ends_x(&[tips[0], tips[1], tips[2], tips[3], stop]), [400, 200, 300, 100]);
    assert_eq!(ends_x(&[stop, tips[3], tips[2], tips[1], tips[0]]), [400, 200, 300, 100]);
}

/// Whether the trace of the one track is a null shape, and its end.
fn one_trace(commands: &[Command]) -> (bool, (u32, u32)) {
    let records = read(&listing(commands.iter().copied())).expect("accepted");
    let rows = roll(&records);
    (shapes(Layer::Traces, &records, &rows) == [Shape::Null], (rows[0].x, rows[0].y))
}

#[test]
fn a_trace_of_half_a_64th() {
    // The wall is 1/128 above (1001, 1000), 1/64 above (1002, 1000), 1/128 below (1127, 1001), 1/64 below (1126, 1001).
    let slanted = wall(1, 1000, 1000, 1128, 1001);
    assert_eq!(one_trace(&[slanted, track(1, 1001, 1000, 0, 1)]), (true, (64064, 64000)));
    assert_eq!(one_trace(&[slanted, track(1, 1002, 1000, 0, 1)]), (false, (64128, 64001)));
    assert_eq!(one_trace(&[slanted, track(1, 1127, 1001, 0, -1)]), (true, (72128, 64064)));
    assert_eq!(one_trace(&[slanted, track(1, 1126, 1001, 0, -1)]), (false, (72064, 64063)));
    // 1/127 is more, 1/129 less.
    let (steeper, flatter) = (wall(1, 1000, 1000, 1127, 1001), wall(1, 1000, 1000, 1129, 1001));
    assert_eq!(one_trace(&[steeper, track(1, 1001, 1000, 0, 1)]), (false, (64064, 64001)));
    assert_eq!(one_trace(&[steeper, track(1, 1126, 1001, 0, -1)]), (false, (72064, 64063)));
    assert_eq!(one_trace(&[flatter, track(1, 1001, 1000, 0, 1)]), (true, (64064, 64000)));
    assert_eq!(one_trace(&[flatter, track(1, 1128, 1001, 0, -1)]), (true, (72192, 64064)));
}

#[test]
fn lengths_of_full_files() {
    let longest = |command: fn(u16) -> Command| written(&listing((0..256).map(command))).map(|file| file.len());
    assert_eq!(longest(|i| track(i, 0, 16 * i, 1, 0)), [22628, 2148, 7268, 2148]);
    assert_eq!(longest(|i| track(i, 0, 16 * i, -1, 0)), [3172, 2148, 7268, 2148]);
}

#[test]
fn another_order_has_the_same_files() {
    let mut rng = reference::rng::Rng::new(41);
    for sheet in [reference::chosen::shapes::sheets(), made_up::all(42)].concat() {
        let Some(other) = made_up::in_another_order(&mut rng, &sheet) else { continue };
        assert_eq!(written(&other), written(&sheet));
    }
}

#[test]
fn a_file_alone_is_as_among_the_four() {
    let records = read(&null_in_the_middle()).expect("accepted");
    let rows = roll(&records);
    let alone = Layer::ALL.map(|layer| [main_file(layer, &records, &rows), index_file(layer, &records, &rows)]);
    assert_eq!(alone.concat(), files(&records, &rows));
}
