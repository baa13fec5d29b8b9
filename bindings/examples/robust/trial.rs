//! One input: what the reference implementation expects of each function, worked out once, and the calls that are compared with it.

use crate::guarded::{Guarded, SIDES};
use fissures::{numbers, Cell, GridRoll, Place, ROW, SHAPEFILES};
use reference::cells::{self, FIGURES};
use reference::names::place_in;
use reference::refusal::{Refusal, GRID_FIGURE, OUTPUT_TOO_SHORT, OUTSIDE_GRID};
use reference::rng::Rng;
use reference::roll::{roll, roll_bytes, Row};
use reference::shapefile::files;
use reference::sheet::{ordered_form, read, Records};
use std::fmt::Debug;

/// What an accepted sheet gives.
pub struct Sheet {
    records: Records,
    pub rows: Vec<Row>,
    form: Vec<u8>,
    roll: Vec<u8>,
    /// In the order of `SHAPEFILES`.
    shapefiles: [Vec<u8>; 4],
}

/// Refusal 13.
fn check_figure(figure: u64) -> Result<(), Refusal> {
    match FIGURES.contains(&figure) {
        true => Ok(()),
        false => Err(Refusal { number: GRID_FIGURE, place: figure as usize }),
    }
}

/// Refusal 13 or 14.
fn check_cell(figure: u64, cell: cells::Cell) -> Result<(), Refusal> {
    check_figure(figure)?;
    match cell.column.max(cell.row) < figure {
        true => Ok(()),
        false => Err(Refusal { number: OUTSIDE_GRID, place: 0 }),
    }
}

pub fn work_out(input: &[u8]) -> Result<Sheet, Refusal> {
    let records = read(input)?;
    let rows = roll(&records);
    let form = ordered_form(&records.tracks, &records.walls);
    let (roll, shapefiles) = (roll_bytes(&rows), files(&records, &rows));
    Ok(Sheet { records, rows, form, roll, shapefiles })
}

fn as_told(refusal: Refusal) -> fissures::Refusal {
    fissures::Refusal { number: refusal.number.into(), place: refusal.place as u64 }
}

/// The calls on one input.
pub struct Trial<'a> {
    pub rng: &'a mut Rng,
    /// The input, in guarded memory.
    pub input: &'a [u8],
    pub expected: Result<&'a Sheet, Refusal>,
    pub out: &'a mut Guarded,
    /// For sessions, and for the two name lists.
    pub numbers: &'a mut Guarded,
    pub lists: &'a mut [Guarded; 2],
    /// How many calls gave 0, and each refusal's number.
    pub answers: &'a mut [u64; 15],
    pub differences: Vec<String>,
}

impl<'a> Trial<'a> {
    pub fn run(&mut self) {
        self.check();
        self.order();
        self.plain();
        self.grid();
        self.cells();
        self.shapefiles();
        self.session();
        self.name();
    }

    /// Makes a call with a buffer that is exact, too short by one byte or longer. Compares the answer and all bytes of the buffer with
    /// the value and the bytes expected.
    fn call<T: Debug + PartialEq>(
        &mut self,
        name: &str,
        expected: Result<(T, &[u8]), Refusal>,
        make: impl FnOnce(&mut [u8]) -> Result<T, fissures::Refusal>,
    ) {
        let needed = expected.as_ref().map_or(40, |(_, bytes)| bytes.len());
        let room = match self.rng.below(4) {
            0 => needed.saturating_sub(1),
            1 => needed + 1 + self.rng.below(64),
            _ => needed,
        };
        let fill = self.rng.draw() as usize;
        let mut after: Vec<u8> = (0..room).map(|i| (i * 37).wrapping_add(fill) as u8).collect();
        let side = self.rng.pick(&SIDES);
        let out = self.out.lend(room, side);
        out.copy_from_slice(&after);
        let answer = make(out);
        let expected = match expected {
            Err(refusal) => Err(as_told(refusal)),
            Ok((_, bytes)) if room < bytes.len() => {
                Err(as_told(Refusal { number: OUTPUT_TOO_SHORT, place: bytes.len() }))
            }
            Ok((value, bytes)) => {
                after[..bytes.len()].copy_from_slice(bytes);
                Ok(value)
            }
        };
        self.answers[expected.as_ref().map_or_else(|refusal| refusal.number as usize, |_| 0)] += 1;
        if answer != expected || *out != after {
            let call = format!("{name}, {room} bytes lent: {answer:?} {out:02x?}");
            self.differences.push(format!("{call}\n  expected: {expected:?} {after:02x?}"));
        }
    }

    fn check(&mut self) {
        let (input, expected) = (self.input, self.expected.map(|_| ((), &[][..])));
        self.call("check", expected, |_| fissures::check(input));
    }

    fn order(&mut self) {
        let (input, expected) = (self.input, self.expected.map(|sheet| (sheet.form.len(), &sheet.form[..])));
        self.call("order", expected, |out| fissures::order(input, out));
    }

    fn plain(&mut self) {
        let (input, expected) = (self.input, self.expected.map(|sheet| (sheet.rows.len(), &sheet.roll[..])));
        self.call("plain", expected, |out| fissures::plain(input, out));
    }

    /// One of the six figures, or now and then another.
    fn figure(&mut self) -> u64 {
        match self.rng.one_in(8) {
            true => self.rng.pick(&[0, 3, 5, 31, 33, 64, 1 << 32, u64::MAX]),
            false => self.rng.pick(&FIGURES),
        }
    }

    fn grid(&mut self) {
        let (input, figure) = (self.input, self.figure());
        let expected = self.expected.and_then(|sheet| {
            check_figure(figure)?;
            let cells = cells::count(&sheet.records, &sheet.rows, figure) as u64;
            Ok((GridRoll { rows: sheet.rows.len(), cells }, &sheet.roll[..]))
        });
        self.call(&format!("grid {figure}"), expected, |out| fissures::grid(input, figure, out));
    }

    /// A column or row of the grid, or now and then one outside.
    fn line(&mut self, figure: u64) -> u64 {
        match self.rng.one_in(12) {
            true => self.rng.pick(&[figure, figure.wrapping_add(1), 1 << 32, u64::MAX]),
            false => self.rng.below(figure.clamp(1, 32) as usize) as u64,
        }
    }

    /// A cell of a trace, or any.
    fn cell(&mut self) -> Cell {
        let figure = self.figure();
        let (column, row) = (self.line(figure), self.line(figure));
        match self.expected {
            Ok(sheet) if !sheet.rows.is_empty() && FIGURES.contains(&figure) && self.rng.one_in(2) => {
                let Row { id, time, .. } = self.rng.pick(&sheet.rows);
                let track = sheet.records.tracks.iter().find(|track| track.id == id).expect("a track for each row");
                let cells::Cell { column, row } = self.rng.pick(&cells::cells_of(track, time, figure));
                Cell { figure, column, row }
            }
            _ => Cell { figure, column, row },
        }
    }

    fn cells(&mut self) {
        let (input, cell) = (self.input, self.cell());
        let Cell { figure, column, row } = cell;
        let ids = self.expected.and_then(|sheet| {
            let cell = cells::Cell { column, row };
            check_cell(figure, cell)?;
            Ok(cells::ids_in(&sheet.records, &sheet.rows, figure, cell))
        });
        let listed = ids.map(|ids| (ids.len(), ids.iter().flat_map(|id| id.to_le_bytes()).collect::<Vec<u8>>()));
        let expected = listed.as_ref().map(|(count, bytes)| (*count, &bytes[..])).map_err(|refusal| *refusal);
        self.call(&format!("{cell:?}"), expected, |out| fissures::cells(input, cell, out));
    }

    fn shapefiles(&mut self) {
        let (input, sheet) = (self.input, self.expected);
        for (i, file) in SHAPEFILES.into_iter().enumerate() {
            let expected = sheet.map(|sheet| &sheet.shapefiles[i][..]).map(|bytes| (bytes.len(), bytes));
            self.call(file.name, expected, |out| (file.write)(input, out));
        }
    }

    /// The lent numbers of a session: none, one or more, with any number of rows shown.
    fn lent_session(&mut self) -> Vec<u64> {
        let shown =
            if self.rng.one_in(2) { self.rng.pick(&[1, 2, 7, 256, 257, u64::MAX]) } else { self.rng.below(6) as u64 };
        let count = self.rng.pick(&[0, 1, 1, 1, 2, 5]);
        (0..count).map(|at| if at == 0 { shown } else { self.rng.draw() }).collect()
    }

    /// A call on a session in guarded memory. What is expected of the sheet's rows and of the rows shown: the number given, the rows shown
    /// then and the rows written, from one row to another.
    fn step(
        &mut self,
        name: &str,
        wanted: impl Fn(usize, u64) -> (usize, u64, usize, usize),
        make: impl FnOnce(&[u8], &mut [u64], &mut [u8]) -> Result<usize, fissures::Refusal>,
    ) {
        let (input, before, side) = (self.input, self.lent_session(), self.rng.pick(&SIDES));
        let mut after = before.clone();
        let expected = self.expected.and_then(|sheet| {
            let first = after.first_mut().ok_or(Refusal { number: OUTPUT_TOO_SHORT, place: numbers::SIZE })?;
            let (second, shown, from, to) = wanted(sheet.rows.len(), *first);
            *first = shown;
            Ok(((second, after.clone()), &sheet.roll[from * ROW..to * ROW]))
        });
        let mut memory = *self.numbers;
        let session = memory.lend_numbers(before.len(), side);
        session.copy_from_slice(&before);
        let mut moved = false;
        self.call(&format!("{name} of {before:?}"), expected, |out| {
            let answer = make(input, session, out);
            moved = answer.is_err() && *session != before[..];
            answer.map(|second| (second, session.to_vec()))
        });
        if moved {
            self.differences.push(format!("{name} of {before:?}: a refusal moved the session"));
        }
    }

    fn session(&mut self) {
        let n = self.rng.pick(&[0, 1, 1, 2, 2, 3, 5, 8, 256, u64::MAX]);
        let advance = |rows: usize, shown: u64| {
            let from = shown.min(rows as u64) as usize;
            let to = from + n.min((rows - from) as u64) as usize;
            (to - from, to as u64, from, to)
        };
        self.step("open", |_, _| (0, 0, 0, 0), |input, session, _| numbers::open(input, session));
        self.step(&format!("advance {n}"), advance, |input, session, out| numbers::advance(input, session, n, out));
        self.step("reset", |_, _| (0, 0, 0, 0), |input, session, _| numbers::reset(input, session));
        let left = |rows: usize, shown: u64| ((rows as u64).saturating_sub(shown) as usize, shown, 0, 0);
        self.step("running", left, |input, session, _| numbers::running(input, session));
    }

    /// A list of names, often with an id twice, now and then cut short.
    fn name_list(&mut self) -> Vec<u8> {
        let mut list = Vec::new();
        for _ in 0..self.rng.below(5) {
            let size = self.rng.pick(&[0, 1, 3, 255]);
            list.extend(self.rng.pick(&[0, 1, 2, 300, 65535_u16]).to_le_bytes());
            list.push(size);
            list.extend((0..size).map(|_| self.rng.below(3) as u8));
        }
        if self.rng.one_in(3) {
            list.truncate(self.rng.below(list.len() + 1));
        }
        list
    }

    fn name(&mut self) {
        let (tracks, walls) = (self.name_list(), self.name_list());
        let kind = self.rng.pick(&[0, 1, 1, 2, 2, 3, 3, 4, 5, 256, 257, u64::MAX]);
        let partner = self.rng.pick(&[0, 1, 2, 300, 65535, 65536, 1 << 32, u64::MAX]);
        let (number, list) = if kind == 3 { (Place::WALLS, &walls) } else { (Place::TRACKS, &tracks) };
        let id = u16::try_from(partner).ok().filter(|_| (1..=3).contains(&kind));
        let place = id.and_then(|id| place_in(list, id));
        let (start, size) = place.unwrap_or((0, 0));
        let expected = Place { list: if place.is_some() { number } else { Place::TRACKS }, start, size };
        let [one, two] = &mut *self.lists;
        let (one, two) = (one.lend_copy(&tracks, self.rng.pick(&SIDES)), two.lend_copy(&walls, self.rng.pick(&SIDES)));
        let found = fissures::name_place(one, two, kind, partner);
        if found != expected {
            let call = format!("name {kind} {partner} in {tracks:02x?} {walls:02x?}: {found:?}");
            self.differences.push(format!("{call}\n  expected: {expected:?}"));
        }
    }
}
