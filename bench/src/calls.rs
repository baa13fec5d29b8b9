//! The calls of the proved library, and what the reference implementation does for each: both from a sheet's bytes to the answer's.

use crate::sheets::Timed;
use crate::timing::least;
use fissures::{Cell, Session, LONGEST_TRACES_SHP};
use reference::cells::{count, listing, FIGURES};
use reference::roll::{roll, roll_bytes, Row};
use reference::shapefile::{index_file, main_file, Layer};
use reference::sheet::{self, read};
use std::hint::black_box;

#[derive(Clone, Copy)]
pub enum Call {
    /// The verdict.
    Read,
    /// The ordered form: the sheet read, its records checked as those handed in are, and written.
    Order,
    Plain,
    /// The grid run of a figure.
    Grid(u64),
    /// A session with half of its rows shown advances by one.
    Step,
    /// The listing of the fullest cell at a figure.
    Cells(u64),
    /// A shapefile with its records, and its index file.
    Main(Layer),
    Index(Layer),
}

/// Room for any answer.
const LONGEST: usize = LONGEST_TRACES_SHP;

/// Those of the cell listing: all tracks in one cell, and a grid.
pub const LISTED_FIGURES: [u64; 2] = [1, 8];

impl Call {
    /// Those by which a sheet is worked out.
    pub fn all() -> Vec<Call> {
        let cells = LISTED_FIGURES.map(Call::Cells);
        [&[Call::Read, Call::Plain][..], &FIGURES.map(Call::Grid), &[Call::Step], &cells].concat()
    }

    /// Those by which a sheet is exported.
    pub fn exports() -> [Call; 4] {
        [Call::Main(Layer::Traces), Call::Index(Layer::Traces), Call::Main(Layer::Ends), Call::Index(Layer::Ends)]
    }

    pub fn name(self) -> String {
        match self {
            Call::Read => "reading".into(),
            Call::Order => "reading, checking and writing".into(),
            Call::Plain => "plain run".into(),
            Call::Grid(figure) => format!("grid run, g = {figure}"),
            Call::Step => "session step".into(),
            Call::Cells(figure) => format!("cell listing, g = {figure}"),
            Call::Main(Layer::Traces) => "traces.shp".into(),
            Call::Index(Layer::Traces) => "traces.shx".into(),
            Call::Main(Layer::Ends) => "ends.shp".into(),
            Call::Index(Layer::Ends) => "ends.shx".into(),
        }
    }

    /// Writes the proved answer's bytes and gives its number.
    fn proved(self, timed: &Timed, out: &mut [u8]) -> usize {
        let sheet = &timed.bytes;
        let answer = match self {
            Call::Read => fissures::check(sheet).map(|()| 0),
            Call::Order => fissures::order(sheet, out),
            Call::Plain => fissures::plain(sheet, out),
            Call::Grid(figure) => fissures::grid(sheet, figure, out).map(|roll| roll.cells as usize),
            Call::Step => Session { sheet, shown: timed.half() as u64 }.advance(1, out),
            Call::Cells(figure) => {
                let (cell, _) = timed.fullest(figure);
                fissures::cells(sheet, Cell { figure, column: cell.column, row: cell.row }, out)
            }
            Call::Main(Layer::Traces) => fissures::traces_shp(sheet, out),
            Call::Index(Layer::Traces) => fissures::traces_shx(sheet, out),
            Call::Main(Layer::Ends) => fissures::ends_shp(sheet, out),
            Call::Index(Layer::Ends) => fissures::ends_shx(sheet, out),
        };
        answer.expect("an accepted sheet")
    }

    /// The same by the reference implementation.
    fn outside(self, timed: &Timed, out: &mut [u8]) -> usize {
        let records = black_box(read(&timed.bytes).expect("an accepted sheet"));
        match self {
            Call::Read => 0,
            Call::Order => {
                sheet::check(&records.tracks, &records.walls).expect("accepted records");
                sheet::write(&records.tracks, &records.walls, out).expect("room for any sheet")
            }
            Call::Plain => put(&roll(&records), out),
            Call::Grid(figure) => {
                let rows = roll(&records);
                put(&rows, out);
                count(&records, &rows, figure)
            }
            Call::Step => put(&roll(&records)[timed.half()..][..1], out),
            Call::Cells(figure) => {
                let ids = listing(&records, figure, timed.fullest(figure).0).expect("a cell of the grid");
                put_bytes(&ids.iter().flat_map(|id| id.to_le_bytes()).collect::<Vec<u8>>(), out);
                ids.len()
            }
            Call::Main(layer) => put_bytes(&main_file(layer, &records, &roll(&records)), out),
            Call::Index(layer) => put_bytes(&index_file(layer, &records, &roll(&records)), out),
        }
    }

    /// Both sides give the same answer.
    pub fn check(self, timed: &Timed) {
        let (mut ours, mut theirs) = (vec![0; LONGEST], vec![0; LONGEST]);
        let numbers = (self.proved(timed, &mut ours), self.outside(timed, &mut theirs));
        assert!(numbers.0 == numbers.1 && ours == theirs, "{}, {}: answers differ", timed.name(), self.name());
    }
}

fn put_bytes(bytes: &[u8], out: &mut [u8]) -> usize {
    out[..bytes.len()].copy_from_slice(bytes);
    bytes.len()
}

fn put(rows: &[Row], out: &mut [u8]) -> usize {
    put_bytes(&roll_bytes(rows), out);
    rows.len()
}

/// Microseconds of a call on both sides.
#[derive(Clone, Copy)]
pub struct Pair {
    pub proved: f64,
    pub outside: f64,
}

impl Pair {
    pub fn ratio(&self) -> f64 {
        self.proved / self.outside
    }
}

/// The times of each call, which all take turns. Both sides give the same answers.
pub fn compare(calls: &[Call], timed: &Timed) -> Vec<Pair> {
    calls.iter().for_each(|call| call.check(timed));
    let mut out = [0; LONGEST];
    let times = least(2 * calls.len(), |number| {
        let (call, timed) = (calls[number / 2], black_box(timed));
        black_box(match number % 2 {
            0 => call.proved(timed, &mut out),
            _ => call.outside(timed, &mut out),
        });
    });
    times.chunks(2).map(|pair| Pair { proved: pair[0], outside: pair[1] }).collect()
}
