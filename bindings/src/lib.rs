//! The proved library (crates/fissures_c) behind safe functions; examples/rust is a whole program over them. Only the calls here and the
//! guard pages of `robust` are `unsafe` code. No call takes more than 256 KB of stack (measured on x86-64).

mod c;
mod refusal;
mod row;
mod shapefiles;

pub use refusal::Refusal;
pub use row::{Row, Side, ROW};
pub use shapefiles::*;

/// Room for the roll of any sheet: 256 rows.
pub const LONGEST_ROLL: usize = 256 * ROW;
/// Room for the ids of any cell: 256 of 2 bytes.
pub const LONGEST_CELL: usize = 256 * 2;
/// Room for the ordered form of any sheet: 256 tracks with start times, 256 walls and the end.
pub const LONGEST_SHEET: usize = 256 * 11 + 256 * 11 + 1;
/// So many bytes of an input are enough to read: they decide its answer, however long it is (SHEETS 2.10).
/// One command more than the longest sheet has.
pub const ENOUGH: usize = LONGEST_SHEET - 1 + 11;

/// What an accepted call of the grid run gives.
#[derive(Clone, Copy, Debug, PartialEq, Eq)]
pub struct GridRoll {
    pub rows: usize,
    /// How many cells hold a point of a trace, summed over the traces.
    pub cells: u64,
}

/// One cell of the grid of a figure.
#[derive(Clone, Copy, Debug, PartialEq, Eq)]
pub struct Cell {
    pub figure: u64,
    pub column: u64,
    pub row: u64,
}

/// No count of cells.
const UNTOUCHED: u64 = u64::MAX;

/// Makes a call, which stores its second number and returns 0 or the number of its refusal (SHEETS 11.1).
fn answer(call: impl FnOnce(&mut u64) -> u64) -> Result<usize, Refusal> {
    let mut second = 0;
    match call(&mut second) {
        0 => Ok(second as usize),
        number => Err(Refusal { number, place: second }),
    }
}

/// Whether the sheet's bytes are accepted.
pub fn check(sheet: &[u8]) -> Result<(), Refusal> {
    // SAFETY: `sheet` is a slice, `second` is borrowed mutably.
    answer(|second| unsafe { c::fissure_check(sheet.as_ptr(), sheet.len(), second) }).map(|_| ())
}

/// The calls of c.rs that write what they make of a sheet, and are given nothing else.
type Writer = unsafe extern "C" fn(*const u8, usize, *mut u8, usize, &mut u64) -> u64;

/// Makes such a call.
fn write(call: Writer, sheet: &[u8], out: &mut [u8]) -> Result<usize, Refusal> {
    let (room, out) = (out.len(), out.as_mut_ptr());
    // SAFETY: `call` is one of c.rs; `sheet` and `out` are slices, `out` and `second` are borrowed mutably.
    answer(|second| unsafe { call(sheet.as_ptr(), sheet.len(), out, room, second) })
}

/// Writes the sheet's ordered form and gives its length. A track that starts at 0 is written by 01, also where the sheet lists it by 03.
pub fn order(sheet: &[u8], out: &mut [u8]) -> Result<usize, Refusal> {
    write(c::fissure_order, sheet, out)
}

/// Writes the sheet's roll, by the plain run, and gives the number of rows.
pub fn plain(sheet: &[u8], out: &mut [u8]) -> Result<usize, Refusal> {
    write(c::fissure_plain, sheet, out)
}

/// Writes the sheet's roll, by the grid run of the figure.
pub fn grid(sheet: &[u8], figure: u64, out: &mut [u8]) -> Result<GridRoll, Refusal> {
    let mut cells = UNTOUCHED;
    let (room, out) = (out.len(), out.as_mut_ptr());
    let rows = answer(|second| {
        // SAFETY: `sheet` and `out` are slices; `out`, `second` and `cells` are borrowed mutably.
        unsafe { c::fissure_grid(sheet.as_ptr(), sheet.len(), figure, out, room, second, &mut cells) }
    });
    assert!(rows.is_ok() || cells == UNTOUCHED, "a refused call leaves the count as it came");
    rows.map(|rows| GridRoll { rows, cells })
}

/// Writes the ids of the tracks with a point in the cell, 2 bytes each, and gives their number. They come by when their traces enter the
/// cell, those of one time by rising id (SHEETS 6.4 and 6.10).
pub fn cells(sheet: &[u8], cell: Cell, out: &mut [u8]) -> Result<usize, Refusal> {
    let Cell { figure, column, row } = cell;
    let (room, out) = (out.len(), out.as_mut_ptr());
    // SAFETY: `sheet` and `out` are slices, `out` and `second` are borrowed mutably.
    answer(|second| unsafe { c::fissure_cells(sheet.as_ptr(), sheet.len(), figure, column, row, out, room, second) })
}

/// A session as a lent slice of numbers, of which the first `SIZE` are the session and any behind them stay as they are.
pub mod numbers {
    use super::{answer, c, Refusal};

    /// Today one number, the rows shown.
    pub const SIZE: usize = 1;

    /// No row shown.
    pub fn open(sheet: &[u8], session: &mut [u64]) -> Result<usize, Refusal> {
        let (numbers, session) = (session.len(), session.as_mut_ptr());
        // SAFETY: `sheet` and `session` are slices, `session` and `second` are borrowed mutably.
        answer(|second| unsafe { c::fissure_open(sheet.as_ptr(), sheet.len(), session, numbers, second) })
    }

    /// Writes the next n rows, or those left if fewer, and gives their number.
    pub fn advance(sheet: &[u8], session: &mut [u64], n: u64, out: &mut [u8]) -> Result<usize, Refusal> {
        let (length, sheet) = (sheet.len(), sheet.as_ptr());
        let (numbers, session) = (session.len(), session.as_mut_ptr());
        let (room, out) = (out.len(), out.as_mut_ptr());
        // SAFETY: `sheet`, `session` and `out` are slices; `session`, `out` and `second` are borrowed mutably.
        answer(|second| unsafe { c::fissure_advance(sheet, length, session, numbers, n, out, room, second) })
    }

    /// No row shown.
    pub fn reset(sheet: &[u8], session: &mut [u64]) -> Result<usize, Refusal> {
        let (numbers, session) = (session.len(), session.as_mut_ptr());
        // SAFETY: `sheet` and `session` are slices, `session` and `second` are borrowed mutably.
        answer(|second| unsafe { c::fissure_reset(sheet.as_ptr(), sheet.len(), session, numbers, second) })
    }

    /// The number of rows not yet shown.
    pub fn running(sheet: &[u8], session: &[u64]) -> Result<usize, Refusal> {
        let (numbers, session) = (session.len(), session.as_ptr());
        // SAFETY: `sheet` and `session` are slices, `second` is borrowed mutably.
        answer(|second| unsafe { c::fissure_running(sheet.as_ptr(), sheet.len(), session, numbers, second) })
    }
}

/// A sheet's bytes and how many rows of its roll have been shown. A refused call leaves it as it is.
#[derive(Clone, Copy, Debug, PartialEq, Eq)]
pub struct Session<'a> {
    pub sheet: &'a [u8],
    pub shown: u64,
}

impl<'a> Session<'a> {
    /// Over an accepted sheet, with no row shown.
    pub fn open(sheet: &'a [u8]) -> Result<Self, Refusal> {
        let mut session = Session { sheet, shown: 0 };
        session.with_numbers(numbers::open).map(|_| session)
    }

    /// Writes the next n rows, or those left if fewer, and gives their number.
    pub fn advance(&mut self, n: u64, out: &mut [u8]) -> Result<usize, Refusal> {
        self.with_numbers(|sheet, session| numbers::advance(sheet, session, n, out))
    }

    /// Puts the number of rows shown to 0.
    pub fn reset(&mut self) -> Result<(), Refusal> {
        self.with_numbers(numbers::reset).map(|_| ())
    }

    /// The number of tracks still running, those yet to open among them: the rows not yet shown.
    pub fn running(&self) -> Result<usize, Refusal> {
        numbers::running(self.sheet, &[self.shown])
    }

    fn with_numbers<T>(&mut self, call: impl FnOnce(&[u8], &mut [u64]) -> T) -> T {
        let mut session = [self.shown];
        let answer = call(self.sheet, &mut session);
        [self.shown] = session;
        answer
    }
}

/// Where a name lies.
#[derive(Clone, Copy, Debug, PartialEq, Eq)]
pub struct Place {
    /// `TRACKS` or `WALLS`.
    pub list: u64,
    pub start: usize,
    pub size: usize,
}

impl Place {
    pub const TRACKS: u64 = 1;
    pub const WALLS: u64 = 2;
}

/// Where the name of a row's partner lies: for kinds 1 and 2 in the track list, for 3 in the wall list. Where there is none, the empty part
/// at the start of the track list.
pub fn name_place(tracks: &[u8], walls: &[u8], kind: u64, partner: u64) -> Place {
    let (mut list, mut start, mut size) = (0, 0, 0);
    // SAFETY: `tracks` and `walls` are slices; `list`, `start` and `size` are borrowed mutably.
    unsafe {
        c::fissure_name(
            tracks.as_ptr(),
            tracks.len(),
            walls.as_ptr(),
            walls.len(),
            kind,
            partner,
            &mut list,
            &mut start,
            &mut size,
        )
    };
    Place { list, start: start as usize, size: size as usize }
}

/// The name of a row's partner, as a part of one of the two lists.
pub fn name<'a>(tracks: &'a [u8], walls: &'a [u8], kind: u64, partner: u64) -> &'a [u8] {
    let Place { list, start, size } = name_place(tracks, walls, kind, partner);
    let list = if list == Place::TRACKS { tracks } else { walls };
    &list[start..start + size]
}
