//! Questions and what is expected of them, for a program that is compared with this implementation.
//!
//! - `vectors frames` writes framed questions, and how many there are to standard error.
//! - `vectors expected` reads such frames and prints the answers: of a sheet or of records handed
//!   in the refusal, or what reader, writer, both runs, the cell listings and the shapefiles give; of a
//!   lookup the name.
//! - `vectors cells` reads such frames and prints for each sheet its refusal or the cell listings.
//! - `vectors roll` reads one sheet without a frame and prints what program `roll` prints.

#![forbid(unsafe_code)]

use reference::cells::{self, Cell, FIGURES};
use reference::frames::{self, Frame};
use reference::handed_in::HandedIn;
use reference::names::Lookup;
use reference::refusal::Refusal;
use reference::roll::{roll, roll_bytes};
use reference::shapefile;
use reference::sheet::{ordered_form, read, Records};
use std::collections::BTreeMap;
use std::io::{self, BufWriter, Read, Write};
use std::process::ExitCode;

const SEED: u64 = 1;
/// The figure of program `roll`, and of `vectors cells`.
const FIGURE: u64 = 8;
/// The figures under which `vectors expected` lists every cell.
const LISTED: [u64; 2] = [2, 4];
const USAGE: &str = "usage: vectors frames | expected | cells | roll";

/// What the question is, and its answer's kind.
fn class(frame: &Frame) -> (&'static str, String) {
    let verdict = |answer: Result<Records, Refusal>| match answer {
        Ok(_) => "accepted".to_string(),
        Err(refusal) => format!("refused {:2}", refusal.number),
    };
    match frame {
        Frame::Sheet(sheet) => ("sheet", verdict(read(sheet))),
        Frame::Records(handed_in) => ("records", verdict(handed_in.check())),
        Frame::Lookup(lookup) => {
            let answer = if lookup.name().is_empty() { "empty" } else { "name" };
            ("lookup", answer.to_string())
        }
    }
}

fn write_frames(out: &mut impl Write) -> io::Result<()> {
    let mut counts: BTreeMap<_, usize> = BTreeMap::new();
    for frame in frames::all(SEED) {
        frames::write_frame(out, &frame)?;
        *counts.entry(class(&frame)).or_default() += 1;
    }
    for ((question, answer), count) in counts {
        eprintln!("{question}, {answer}: {count}");
    }
    Ok(())
}

fn print_expected(out: &mut impl Write) -> io::Result<()> {
    for frame in frames::read_frames(&mut io::stdin())? {
        let lines = match frame {
            Frame::Sheet(sheet) => sheet_lines(&sheet, records_lines),
            Frame::Records(handed_in) => handed_in_lines(&handed_in),
            Frame::Lookup(lookup) => name_line(&lookup),
        };
        writeln!(out, "{lines}")?;
    }
    Ok(())
}

fn print_cells(out: &mut impl Write) -> io::Result<()> {
    for frame in frames::read_frames(&mut io::stdin())? {
        if let Frame::Sheet(sheet) = frame {
            writeln!(out, "{}", sheet_lines(&sheet, cells_line))?;
        }
    }
    Ok(())
}

/// A sheet's refusal or, if it is accepted, the lines for its records.
fn sheet_lines(sheet: &[u8], lines: fn(&Records) -> String) -> String {
    read(sheet).map_or_else(|refusal| refusal.to_string(), |records| lines(&records))
}

fn hexadecimal(bytes: &[u8]) -> String {
    bytes.iter().map(|byte| format!("{byte:02x}")).collect()
}

/// Numbers of tracks and walls and the ordered form; the roll's bytes; the cells entered at each
/// of the six figures; the cell listings; the shapefiles.
fn records_lines(records: &Records) -> String {
    let Records { tracks, walls } = records;
    let form = hexadecimal(&ordered_form(tracks, walls));
    let rows = roll(records);
    let bytes = hexadecimal(&roll_bytes(&rows));
    let counts = cells::counts(records, &rows).map(|count| count.to_string()).join(" ");
    let listed = listed_line(|figure, cell| {
        let ids = cells::ids_in(records, &rows, figure, cell);
        hexadecimal(&ids.iter().flat_map(|id| id.to_le_bytes()).collect::<Vec<u8>>())
    });
    let shapes = shapes_line(shapefile::files(records, &rows).map(|file| length_and_checksum(&file)));
    format!("{} {} {form}\nroll {bytes}\ncells {counts}\n{listed}\n{shapes}", tracks.len(), walls.len())
}

/// What is said of each of the four files, in the order of `shapefile::files`.
fn shapes_line(of_files: [String; 4]) -> String {
    format!("shapes {}", of_files.join(" "))
}

/// Of a file, whose bytes would make too long a line. The modulus is a prime below 2^55, so that products are within
/// 64 bits.
fn length_and_checksum(file: &[u8]) -> String {
    let checksum = file.iter().fold(0, |sum: u64, byte| (sum * 257 + u64::from(*byte) + 1) % ((1 << 55) - 55));
    format!("{} {checksum}", file.len())
}

/// The cells of a grid, by columns, then rows.
fn all_cells(figure: u64) -> impl Iterator<Item = Cell> {
    (0..figure).flat_map(move |column| (0..figure).map(move |row| Cell { column, row }))
}

/// What is said of each cell; nothing between two spaces where the cell is empty.
fn listed_line(of: impl Fn(u64, Cell) -> String) -> String {
    let all = LISTED.iter().flat_map(|&figure| all_cells(figure).map(move |cell| (figure, cell)));
    all.fold("listed".to_string(), |line, (figure, cell)| line + " " + &of(figure, cell))
}

/// What the check gives, then the writer, both runs, the cell listings and the shapefiles: the plain run
/// once, the grid run at each figure, the listing for each cell, the shapefile for each of the four.
fn handed_in_lines(handed_in: &HandedIn) -> String {
    let HandedIn { ntracks, nwalls, .. } = handed_in;
    match handed_in.check() {
        Ok(records) => format!("accepted\n{}", records_lines(&records)),
        Err(refusal) => {
            let at_each = FIGURES.map(|_| refusal.to_string()).join(" ");
            let listed = listed_line(|_, _| refusal.to_string());
            let shapes = shapes_line([(); 4].map(|()| refusal.to_string()));
            format!("{refusal}\n{ntracks} {nwalls} {refusal}\nroll {refusal}\ncells {at_each}\n{listed}\n{shapes}")
        }
    }
}

/// The name's length and bytes.
fn name_line(lookup: &Lookup) -> String {
    let name = lookup.name();
    format!("name {} {}", name.len(), hexadecimal(name))
}

/// Each cell with a point of a trace, as `column,row:id,id`; by columns, then rows, ids in the listing's order.
fn cells_line(records: &Records) -> String {
    let rows = roll(records);
    let entry = |cell: Cell| {
        let ids = cells::ids_in(records, &rows, FIGURE, cell);
        let ids: Vec<String> = ids.iter().map(u16::to_string).collect();
        (!ids.is_empty()).then(|| format!("{},{}:{}", cell.column, cell.row, ids.join(",")))
    };
    all_cells(FIGURE).filter_map(entry).collect::<Vec<_>>().join(" ")
}

fn print_roll(out: &mut impl Write) -> io::Result<()> {
    let mut sheet = Vec::new();
    io::stdin().read_to_end(&mut sheet)?;
    let records = match read(&sheet) {
        Err(refusal) => return writeln!(out, "{refusal}"),
        Ok(records) => records,
    };
    let rows = roll(&records);
    writeln!(out, "tracks {} cells {}", rows.len(), cells::count(&records, &rows, FIGURE))?;
    for row in &rows {
        writeln!(out, "{row}")?;
    }
    Ok(())
}

fn main() -> ExitCode {
    let mut out = BufWriter::new(io::stdout().lock());
    let done = match std::env::args().nth(1).as_deref() {
        Some("frames") => write_frames(&mut out),
        Some("expected") => print_expected(&mut out),
        Some("cells") => print_cells(&mut out),
        Some("roll") => print_roll(&mut out),
        _ => Err(io::Error::other(USAGE)),
    };
    match done.and_then(|()| out.flush()) {
        Ok(()) => ExitCode::SUCCESS,
        Err(error) => {
            eprintln!("{error}");
            ExitCode::FAILURE
        }
    }
}
