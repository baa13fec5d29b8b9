//! Draws a sheet with its roll, which is the output of the program `roll` for that sheet.

use reference::cells::{Cell, FIGURES};
use reference::sheet::Records;
use sheet_tools::picture::{draw, Note, Options};
use sheet_tools::trace::{self, Trace};
use sheet_tools::view::View;
use sheet_tools::{roll, sheet};
use std::io::{self, Write};
use std::process::ExitCode;

const USAGE: &str =
    "usage: sheet-svg [--grid G [--cell COLUMN ROW]] [--view AX AY BX BY] [--end ID] [--note X Y WORDS]… SHEET ROLL \
    > PICTURE";

fn main() -> ExitCode {
    match run() {
        Ok(()) => ExitCode::SUCCESS,
        Err(wrong) => {
            eprintln!("sheet-svg: {wrong}");
            ExitCode::FAILURE
        }
    }
}

fn run() -> Result<(), String> {
    let arguments: Vec<String> = std::env::args().skip(1).collect();
    let (mut options, end, [sheet_path, roll_path]) = parse(&arguments)?;
    let bytes = std::fs::read(sheet_path).map_err(|wrong| format!("{sheet_path}: {wrong}"))?;
    let text = std::fs::read_to_string(roll_path);
    let text = text.map_err(|wrong| format!("{roll_path}: {wrong}"))?;
    // The roll first: what it says of a refused sheet counts, not how far the sheet can be read.
    let roll = roll::parse(&text)?;
    let records = Records::of(&sheet::from_bytes(&bytes)?);
    let traces = trace::traces(&records.tracks, &roll)?;
    if let Some(id) = end {
        options.view = Some(surroundings(&traces, id)?);
    }
    let svg = draw(&records.walls, &traces, options);
    io::stdout().write_all(svg.as_bytes()).map_err(|wrong| wrong.to_string())
}

/// What is shown around the end of a track.
fn surroundings(traces: &[Trace], id: u16) -> Result<View, String> {
    let trace = traces.iter().find(|trace| trace.row.id == id);
    let row = trace.ok_or_else(|| format!("--end {id}: no row of track {id}"))?.row;
    Ok(View::close_to(row.x.into(), row.y.into()))
}

/// The options, the track whose end is shown, and the two paths after them.
fn parse(arguments: &[String]) -> Result<(Options, Option<u16>, [&str; 2]), String> {
    let (mut options, mut end) = (Options::default(), None);
    let mut words: Vec<&str> = arguments.iter().map(String::as_str).collect();
    loop {
        let taken = match words[..] {
            ["--grid", figure, ..] => {
                let known = figure.parse().ok().filter(|figure| FIGURES.contains(figure));
                options.grid = Some(known.ok_or("the grid figure is 1, 2, 4, 8, 16 or 32")?);
                2
            }
            ["--cell", column, row, ..] => {
                let (Ok(column), Ok(row)) = (column.parse(), row.parse()) else { return Err(USAGE.into()) };
                options.cell = Some(Cell { column, row });
                3
            }
            ["--view", ax, ay, bx, by, ..] => {
                let [ax, ay, bx, by] = [ax, ay, bx, by].map(str::parse);
                let corners = (ax, ay, bx, by);
                let (Ok(ax), Ok(ay), Ok(bx), Ok(by)) = corners else { return Err(USAGE.into()) };
                options.view = Some(View::between(ax, ay, bx, by));
                5
            }
            ["--end", id, ..] => {
                end = Some(id.parse().map_err(|_| USAGE)?);
                2
            }
            ["--note", x, y, words, ..] => {
                let (Ok(x), Ok(y)) = (x.parse(), y.parse()) else { return Err(USAGE.into()) };
                options.notes.push(Note { x, y, words: words.into() });
                4
            }
            [sheet, roll] => {
                return check_cell(&options).and(check_end(&options, end)).map(|()| (options, end, [sheet, roll]))
            }
            _ => return Err(USAGE.into()),
        };
        words.drain(..taken);
    }
}

/// A cell is one of the grid that is drawn.
fn check_cell(options: &Options) -> Result<(), String> {
    match (options.cell, options.grid) {
        (Some(_), None) => Err("--cell is for a grid: give --grid as well".into()),
        (Some(cell), Some(figure)) if cell.column.max(cell.row) >= figure => Err("the cell is outside the grid".into()),
        _ => Ok(()),
    }
}

/// An end has a view of its own, too close for a grid.
fn check_end(options: &Options, end: Option<u16>) -> Result<(), String> {
    match end.and(options.view.map(|_| "--view").or(options.grid.map(|_| "--grid"))) {
        Some(other) => Err(format!("--end shows a part of its own: leave out {other}")),
        None => Ok(()),
    }
}
