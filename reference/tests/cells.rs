//! Cells against a second count: the cells of the points at and between all border crossings.

mod crossings;

use crossings::entries;
use reference::cells::{cells_entered, cells_of, count, counts, ids_in, listing, Cell, FIGURES};
use reference::chosen::{self, document, late, track};
use reference::fraction::Fraction;
use reference::made_up;
use reference::refusal::Refusal;
use reference::rng::Rng;
use reference::roll::{roll, Row};
use reference::sheet::{self, read, Records};

fn records(name: &str) -> Records {
    read(&document::sheet(name)).expect("accepted")
}

fn end_of(rows: &[Row], id: u16) -> Fraction {
    rows.iter().find(|row| row.id == id).expect("a row for each track").time
}

/// Every trace's cells at every figure, and the totals.
fn check_cells(records: &Records) {
    let rows = roll(records);
    for figure in FIGURES {
        let mut total = 0;
        for track in &records.tracks {
            let end = end_of(&rows, track.id);
            let cells = cells_of(track, end, figure);
            let expected = entries(track, end, figure).into_keys();
            assert_eq!(cells, Vec::from_iter(expected), "{track:?}, figure {figure}");
            assert!((1..2 * figure).contains(&(cells.len() as u64)));
            assert!(cells.iter().all(|cell| cell.column.max(cell.row) < figure));
            total += cells.len();
        }
        assert_eq!(count(records, &rows, figure), total);
    }
    assert_eq!(count(records, &rows, 1), records.tracks.len());
}

#[test]
fn sheet_a_has_9_cells_at_8() {
    assert_eq!(cells_entered(&records("A"), 8), Ok(9));
    assert_eq!(cells_entered(&records("A"), 1), Ok(2));
}

#[test]
fn sheet_k_has_no_cells() {
    for figure in FIGURES {
        assert_eq!(cells_entered(&records("K"), figure), Ok(0));
    }
}

#[test]
fn a_diagonal_has_a_cell_or_two_at_each_corner() {
    let one = |command| read(&sheet::listing([command])).expect("accepted");
    for figure in FIGURES {
        let up = cells_entered(&one(track(1, 0, 0, 1, 1)), figure);
        assert_eq!(up, Ok(figure as usize));
        let down = cells_entered(&one(track(1, 0, 4095, 1, -1)), figure);
        assert_eq!(down, Ok(2 * figure as usize - 1));
    }
}

#[test]
fn a_falling_tip_leaves_its_border_at_once() {
    let falling = read(&sheet::listing([track(1, 512, 512, -1, 0)])).expect("accepted");
    let rows = roll(&falling);
    let cells = cells_of(&falling.tracks[0], rows[0].time, 8);
    assert_eq!(cells, [Cell { column: 0, row: 1 }, Cell { column: 1, row: 1 }]);
    let outward = read(&document::sheet("I")).expect("accepted");
    assert_eq!(cells_entered(&outward, 32), Ok(1));
}

#[test]
fn cells_of_chosen_sheets() {
    for sheet in chosen::all() {
        if let Ok(records) = read(&sheet) {
            check_cells(&records);
        }
    }
}

#[test]
fn cells_of_made_up_sheets() {
    let mut rng = Rng::new(21);
    for ground in made_up::GROUNDS {
        for _ in 0..150 {
            let draws = 2 + rng.below(30);
            let commands = ground.accepted(&mut rng, draws);
            check_cells(&read(&sheet::listing(commands)).expect("accepted"));
        }
    }
}

#[test]
fn cells_of_sheets_with_start_times() {
    let mut rng = Rng::new(25);
    for make in made_up::late::MAKERS {
        for _ in 0..150 {
            check_cells(&read(&make(&mut rng)).expect("accepted"));
        }
    }
}

#[test]
fn a_start_time_does_not_change_the_cells_of_a_tip_alone() {
    for start_time in [0, 1, 77, 4095] {
        let falling = read(&sheet::listing([late(1, 512, 512, -1, 0, start_time)])).expect("accepted");
        let rows = roll(&falling);
        assert_eq!(rows[0].time, Fraction::whole(512 + start_time));
        let cells = cells_of(&falling.tracks[0], rows[0].time, 8);
        assert_eq!(cells, [Cell { column: 0, row: 1 }, Cell { column: 1, row: 1 }]);
    }
}

#[test]
fn another_order_has_the_same_roll_and_cells() {
    let mut rng = Rng::new(23);
    let mut orders = 0;
    for sheet in [chosen::all(), made_up::all(24)].concat() {
        let Some(other) = made_up::in_another_order(&mut rng, &sheet) else { continue };
        assert_ne!(other, sheet);
        let answer = |bytes: &[u8]| {
            let records = read(bytes).expect("accepted");
            let rows = roll(&records);
            (counts(&records, &rows), rows)
        };
        assert_eq!(answer(&other), answer(&sheet));
        orders += 1;
    }
    assert!(orders > 2000);
}

#[test]
fn listings_hold_each_trace_as_often_as_it_has_cells() {
    let mut rng = Rng::new(22);
    for _ in 0..40 {
        let records = read(&made_up::accepted(&mut rng)).expect("accepted");
        let rows = roll(&records);
        for figure in FIGURES {
            let cells = (0..figure).flat_map(|column| (0..figure).map(move |row| Cell { column, row }));
            let listed: usize = cells.map(|cell| ids_in(&records, &rows, figure, cell).len()).sum();
            assert_eq!(listed, count(&records, &rows, figure));
        }
    }
}

#[test]
fn figures_and_cells_that_are_refused() {
    let sheet = records("A");
    for figure in [0, 3, 5, 7, 9, 24, 31, 33, 64, 256] {
        let refused = Refusal { number: 13, place: figure as usize };
        assert_eq!(cells_entered(&sheet, figure), Err(refused));
        assert_eq!(listing(&sheet, figure, Cell { column: 999, row: 0 }), Err(refused));
    }
    let refused = Err(Refusal { number: 14, place: 0 });
    assert_eq!(listing(&sheet, 8, Cell { column: 8, row: 0 }), refused);
    assert_eq!(listing(&sheet, 8, Cell { column: 0, row: 8 }), refused);
    let first = listing(&sheet, 8, Cell { column: 0, row: 0 });
    assert_eq!(first, Ok(vec![1, 2]));
}
