//! Made-up sheets with their rolls from the reference implementation.

use reference::cells::count;
use reference::made_up::{accepted, facing, halves, late};
use reference::rng::Rng;
use reference::roll::{roll as rows_of, Row};
use reference::sheet::{listing as bytes_of, read, Records};
use sheet_tools::decimals::Decimals;
use sheet_tools::view::View;
use sheet_tools::{listing, picture, roll, sheet, trace};

/// Accepted sheets from a seed, those after the first 500 with start times, after the first 1000 with facing tips, after
/// the first 1300 with ends at halves.
fn sheets() -> impl Iterator<Item = Vec<u8>> {
    let mut rng = Rng::new(1);
    (0..1600).map(move |number| match number {
        0..500 => accepted(&mut rng),
        500..1000 => late::MAKERS[number % late::MAKERS.len()](&mut rng),
        1000..1300 => facing::MAKERS[number % facing::MAKERS.len()](&mut rng),
        _ => halves::MAKERS[number % halves::MAKERS.len()](&mut rng),
    })
}

/// A roll as the program prints it.
fn printed(records: &Records, rows: &[Row]) -> String {
    let lines: String = rows.iter().map(|row| format!("{row}\n")).collect();
    format!("tracks {} cells {}\n{lines}", rows.len(), count(records, rows, 8))
}

#[test]
fn sheets_there_and_back() {
    for bytes in sheets() {
        let text = listing::print(&sheet::from_bytes(&bytes).unwrap());
        assert_eq!(bytes_of(listing::parse(text.as_bytes()).unwrap()), bytes);
    }
}

#[test]
fn every_roll_is_read_and_drawn() {
    for bytes in sheets() {
        let records = read(&bytes).unwrap();
        let rows = rows_of(&records);
        let roll = roll::parse(&printed(&records, &rows)).unwrap();
        assert_eq!(roll.rows, rows);
        let traces = trace::traces(&records.tracks, &roll).unwrap();
        let svg = picture::draw(&records.walls, &traces, picture::Options::default());
        let late = records.tracks.iter().filter(|track| track.start_time > 0).count();
        assert_eq!(svg.matches(", time ").count(), traces.len());
        assert_eq!(svg.matches(" starts at ").count(), late);
    }
}

#[test]
fn every_end_is_drawn_with_its_rounded_point() {
    for bytes in sheets() {
        let records = read(&bytes).unwrap();
        let rows = rows_of(&records);
        let roll = roll::parse(&printed(&records, &rows)).unwrap();
        let traces = trace::traces(&records.tracks, &roll).unwrap();
        for trace in traces.iter().take(4) {
            let Row { id, x, y, .. } = trace.row;
            let view = Some(View::close_to(x.into(), y.into()));
            let svg = picture::draw(&records.walls, &traces, picture::Options { view, ..Default::default() });
            let (end_x, end_y) = (trace.end().0.units(), trace.end().1.units());
            assert!(svg.contains(&format!(" x2=\"{end_x}\" y2=\"{end_y}\"/>")));
            assert!(svg.contains(&format!("track {id} ends at ")));
            assert!(svg.contains(&format!("track {id}: {x}, {y} for ")));
        }
    }
}
