//! A roll as shapefiles (SHEETS 12): the traces, the end points, and an index file of each. Lengths and offsets inside
//! the files are counted in words of 16 bits.

use crate::roll::Row;
use crate::sheet::{Records, Track};

/// Which shapes a file holds (SHEETS 12.1).
#[derive(Clone, Copy, Debug, PartialEq, Eq)]
pub enum Layer {
    Traces,
    Ends,
}

/// A point in 64ths of a unit.
#[derive(Clone, Copy, Debug, Default, PartialEq, Eq)]
pub struct Point {
    pub x: u32,
    pub y: u32,
}

/// The shape of one record.
#[derive(Clone, Copy, Debug, PartialEq, Eq)]
pub enum Shape {
    /// Of a trace that has no length (SHEETS 12.5).
    Null,
    End(Point),
    Trace {
        start: Point,
        end: Point,
    },
}

/// The box of some points, its least and its greatest corner (SHEETS 12.6).
#[derive(Clone, Copy, Debug, Default, PartialEq, Eq)]
pub struct Bounds {
    pub least: Point,
    pub greatest: Point,
}

const HEADER_WORDS: u32 = 50;
const RECORD_HEADER_WORDS: u32 = 4;
const NULL_SHAPE: u32 = 0;
const POINT: u32 = 1;
const POLY_LINE: u32 = 3;

impl Layer {
    pub const ALL: [Layer; 2] = [Layer::Traces, Layer::Ends];

    /// That of the header, whatever the records are (SHEETS 12.2).
    fn shape_type(self) -> u32 {
        match self {
            Layer::Traces => POLY_LINE,
            Layer::Ends => POINT,
        }
    }
}

impl Point {
    fn start_of(track: &Track) -> Self {
        Point { x: 64 * u32::from(track.x), y: 64 * u32::from(track.y) }
    }

    fn end_of(row: &Row) -> Self {
        Point { x: row.x, y: row.y }
    }

    fn bytes(self) -> Vec<u8> {
        [double(self.x), double(self.y)].concat()
    }
}

impl Bounds {
    /// Zeros where there is no point.
    pub fn of(points: &[Point]) -> Self {
        let corner = |of: fn(u32, u32) -> u32| {
            let both = |a: Point, b: Point| Point { x: of(a.x, b.x), y: of(a.y, b.y) };
            points.iter().copied().reduce(both).unwrap_or_default()
        };
        Bounds { least: corner(u32::min), greatest: corner(u32::max) }
    }

    fn bytes(self) -> Vec<u8> {
        [self.least.bytes(), self.greatest.bytes()].concat()
    }
}

impl Shape {
    fn of_trace(start: Point, end: Point) -> Self {
        if start == end {
            Shape::Null
        } else {
            Shape::Trace { start, end }
        }
    }

    /// From the start on; a null shape has none.
    pub fn points(self) -> Vec<Point> {
        match self {
            Shape::Null => vec![],
            Shape::End(point) => vec![point],
            Shape::Trace { start, end } => vec![start, end],
        }
    }

    /// What stands behind the record's own header (SHEETS 12.4, 12.5).
    fn content(self) -> Vec<u8> {
        match self {
            Shape::Null => little(&[NULL_SHAPE]),
            Shape::End(point) => [little(&[POINT]), point.bytes()].concat(),
            Shape::Trace { start, end } => {
                // One part of two points, which begins at point 0.
                let (bounds, parts) = (Bounds::of(&[start, end]), little(&[1, 2, 0]));
                [little(&[POLY_LINE]), bounds.bytes(), parts, start.bytes(), end.bytes()].concat()
            }
        }
    }
}

fn big(numbers: &[u32]) -> Vec<u8> {
    numbers.iter().flat_map(|number| number.to_be_bytes()).collect()
}

fn little(numbers: &[u32]) -> Vec<u8> {
    numbers.iter().flat_map(|number| number.to_le_bytes()).collect()
}

/// So many 64ths; nothing is lost, since 64 is a power of 2 (SHEETS 12.8).
fn double(in_64ths: u32) -> [u8; 8] {
    (f64::from(in_64ths) / 64.0).to_le_bytes()
}

fn words(bytes: &[u8]) -> u32 {
    u32::try_from(bytes.len() / 2).expect("a short file")
}

/// The shapes of a file in the order of its records, which are numbered from 1 (SHEETS 12.3).
pub fn shapes(layer: Layer, records: &Records, rows: &[Row]) -> Vec<Shape> {
    let start_of = |row: &Row| {
        let track = records.tracks.iter().find(|track| track.id == row.id);
        Point::start_of(track.expect("a track for each row"))
    };
    let shape = |row: &Row| match layer {
        Layer::Traces => Shape::of_trace(start_of(row), Point::end_of(row)),
        Layer::Ends => Shape::End(Point::end_of(row)),
    };
    rows.iter().map(shape).collect()
}

/// The box of a main file, and of its index file.
pub fn bounds(shapes: &[Shape]) -> Bounds {
    let points: Vec<Point> = shapes.iter().flat_map(|shape| shape.points()).collect();
    Bounds::of(&points)
}

/// A header and what stands behind it (SHEETS 12.2).
fn file(layer: Layer, bounds: Bounds, body: &[u8]) -> Vec<u8> {
    let length = big(&[9994, 0, 0, 0, 0, 0, HEADER_WORDS + words(body)]);
    let version_and_type = little(&[1000, layer.shape_type()]);
    let z_and_m = double(0).repeat(4);
    [&length[..], &version_and_type, &bounds.bytes(), &z_and_m, body].concat()
}

/// The bytes of a main file (SHEETS 12.3).
pub fn main_file(layer: Layer, records: &Records, rows: &[Row]) -> Vec<u8> {
    let shapes = shapes(layer, records, rows);
    let record = |(number, shape): (u32, &Shape)| {
        let content = shape.content();
        [big(&[number, words(&content)]), content].concat()
    };
    let body: Vec<u8> = (1..).zip(&shapes).flat_map(record).collect();
    file(layer, bounds(&shapes), &body)
}

/// The bytes of the main file's index file: where each record begins, and the length of its content (SHEETS 12.7).
pub fn index_file(layer: Layer, records: &Records, rows: &[Row]) -> Vec<u8> {
    let shapes = shapes(layer, records, rows);
    let mut offset = HEADER_WORDS;
    let entry = |shape: &Shape| {
        let length = words(&shape.content());
        let entry = big(&[offset, length]);
        offset += RECORD_HEADER_WORDS + length;
        entry
    };
    let body: Vec<u8> = shapes.iter().flat_map(entry).collect();
    file(layer, bounds(&shapes), &body)
}

/// All four files: those of the traces first, a main file before its index file.
pub fn files(records: &Records, rows: &[Row]) -> [Vec<u8>; 4] {
    let [traces, ends] = Layer::ALL.map(|layer| [main_file(layer, records, rows), index_file(layer, records, rows)]);
    let ([traces, traces_index], [ends, ends_index]) = (traces, ends);
    [traces, traces_index, ends, ends_index]
}
