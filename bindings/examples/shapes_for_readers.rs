//! `shapes_for_readers FOLDER COUNT`: the shapefiles of so many sheets, by the proved library, and what a reader should find in them, by
//! the reference implementation. Of sheet 7, say, the folder gets `7-traces.shp`, `7-traces.shx`, `7-ends.shp` and `7-ends.shx`.
//!
//! Printed for each pair of a main file and its index file: a line with its name, shape type, number of records and box, and a line for
//! each record, its points, from the start on, or `null`. Coordinates are in 64ths of a unit, x before y.

use fissures::SHAPEFILES;
use reference::made_up;
use reference::roll::{roll, Row};
use reference::shapefile::{bounds, shapes, Layer, Point, Shape};
use reference::sheet::{read, Records};
use std::io::{stdout, BufWriter, Result, Write};
use std::path::Path;
use std::{env, fs};

/// Accepted sheets: all chosen ones, and made-up ones without end, of each seed those for shapes first.
fn sheets() -> impl Iterator<Item = (Vec<u8>, Records)> {
    let made_up = (1..).flat_map(|seed| [made_up::shapes::all(seed), made_up::all(seed)].concat());
    let all = reference::chosen::all().into_iter().chain(made_up);
    all.filter_map(|sheet| read(&sheet).ok().map(|records| (sheet, records)))
}

/// The coordinates of points, with spaces between them.
fn numbers(points: &[Point]) -> String {
    points.iter().map(|Point { x, y }| format!("{x} {y}")).collect::<Vec<_>>().join(" ")
}

fn list(out: &mut impl Write, number: usize, records: &Records, rows: &[Row]) -> Result<()> {
    for (layer, name, shape_type) in [(Layer::Traces, "traces", 3), (Layer::Ends, "ends", 1)] {
        let shapes = shapes(layer, records, rows);
        let bounds = bounds(&shapes);
        let corners = numbers(&[bounds.least, bounds.greatest]);
        writeln!(out, "{number}-{name} {shape_type} {} {corners}", shapes.len())?;
        for shape in shapes {
            match shape {
                Shape::Null => writeln!(out, "null")?,
                _ => writeln!(out, "{}", numbers(&shape.points()))?,
            }
        }
    }
    Ok(())
}

fn main() -> Result<()> {
    let arguments: Vec<String> = env::args().skip(1).collect();
    let [folder, count] = &arguments[..] else { panic!("shapes_for_readers FOLDER COUNT") };
    let count: usize = count.parse().expect("a number of sheets");
    let mut out = BufWriter::new(stdout().lock());
    for (number, (sheet, records)) in sheets().take(count).enumerate() {
        for file in SHAPEFILES {
            let bytes = file.of(&sheet).expect("an accepted sheet");
            fs::write(Path::new(folder).join(format!("{number}-{}", file.name)), bytes)?;
        }
        list(&mut out, number, &records, &roll(&records))?;
    }
    out.flush()
}
