//! The order of a cell listing (SHEETS 6.10): hand-worked cases, and a second way to find the entry.

mod crossings;

use crossings::entries;
use reference::cells::{entry, ids_in, listing, Cell, FIGURES};
use reference::chosen::{self, document, late, track, wall};
use reference::made_up;
use reference::made_up::entering::{entering, entering_late, Entering};
use reference::rng::Rng;
use reference::roll::{roll, Row};
use reference::sheet::{self, read, Command, Records, Track};

/// Cells under g = 8: (1, 1) is the square from (512, 512) to (1024, 1024), without its right and upper border.
fn ids(commands: &[Command], column: u64, row: u64) -> Vec<u16> {
    let records = read(&sheet::listing(commands.iter().copied())).expect("accepted");
    listing(&records, 8, Cell { column, row }).expect("a cell of the grid")
}

#[test]
fn by_the_time_of_entering() {
    // They enter the cell (1, 1) at 12, 1 and 0 and leave it at 124/5, 257 and 84; at the edge 1 is first and 2 last.
    let (fast, slow, inside) = (track(1, 32, 520, 40, 0), track(2, 510, 600, 2, 0), track(3, 520, 700, 6, 0));
    assert_eq!(ids(&[fast, slow, inside], 1, 1), [3, 2, 1]);
    assert_eq!(ids(&[slow, inside, fast], 1, 1), [3, 2, 1]);
    // Into the next cell 1 comes at 124/5, 3 at 84, 2 at 257.
    assert_eq!(ids(&[slow, inside, fast], 2, 1), [1, 3, 2]);
}

#[test]
fn not_by_the_time_of_ending() {
    // 7 enters at 1 and ends at the edge; 5 enters at 2 and ends at a wall in the cell.
    let commands = [track(7, 511, 600, 1, 0), track(5, 502, 700, 5, 0), wall(1, 600, 690, 600, 710)];
    assert_eq!(ids(&commands, 1, 1), [7, 5]);
}

#[test]
fn equal_times_by_id() {
    // All four come to x = 512 after 1, as 10/10, 5/5, 20/20 and 1/1.
    let commands =
        [track(9, 502, 520, 10, 0), track(3, 507, 530, 5, 0), track(7, 492, 540, 20, 0), track(4, 511, 550, 1, 0)];
    assert_eq!(ids(&commands, 1, 1), [3, 4, 7, 9]);
    // An id counts as a number, not by its bytes: 256 has the low byte 0.
    let commands = [track(256, 502, 520, 10, 0), track(255, 507, 530, 5, 0), track(2, 492, 540, 20, 0)];
    assert_eq!(ids(&commands, 1, 1), [2, 255, 256]);
}

#[test]
fn open_and_closed_entries_at_one_time_by_id() {
    // At 1 the first and the third are on x = 1024, which is not the cell's, the others on its left and lower border.
    let commands =
        [track(1, 1034, 600, -10, 0), track(2, 502, 610, 10, 0), track(3, 1029, 620, -5, 0), track(4, 700, 507, 0, 5)];
    assert_eq!(ids(&commands, 1, 1), [1, 2, 3, 4]);
    // The same with the ids the other way round.
    let commands =
        [track(4, 1034, 600, -10, 0), track(3, 502, 610, 10, 0), track(2, 1029, 620, -5, 0), track(1, 700, 507, 0, 5)];
    assert_eq!(ids(&commands, 1, 1), [1, 2, 3, 4]);
}

#[test]
fn a_start_on_a_border_enters_both_cells_at_0() {
    // 6 leaves x = 512 to the left at once. 2 and 9 start in the cell (0, 1); 1 comes into it at 1, 2 out of it at 412.
    let (falling, inside) = (track(6, 512, 600, -1, 0), [track(9, 100, 700, 0, 1), track(2, 100, 800, 1, 0)]);
    let commands = [track(1, 522, 900, -10, 0), falling, inside[0], inside[1]];
    assert_eq!(ids(&commands, 0, 1), [2, 6, 9, 1]);
    assert_eq!(ids(&commands, 1, 1), [1, 6, 2]);
    // 8 starts on a corner of four cells and falls both ways: the lower left cell at 0, the two beside it never.
    let corner = [track(8, 512, 512, -1, -1), track(7, 500, 300, 1, 0), track(9, 300, 500, 0, -1)];
    assert_eq!(ids(&corner, 0, 0), [7, 8, 9]);
    assert_eq!(ids(&corner, 1, 1), [8]);
    assert_eq!((ids(&corner, 0, 1), ids(&corner, 1, 0)), (vec![], vec![7]));
}

#[test]
fn a_start_on_a_border_that_ends_at_once_enters_one_cell() {
    // 1 starts on x = 512 and goes to the left, but also down over the edge: it has no point in the cell (0, 0).
    let commands = [track(1, 512, 0, -1, -1), track(2, 500, 9, 0, 1)];
    assert_eq!((ids(&commands, 0, 0), ids(&commands, 1, 0)), (vec![2], vec![1]));
}

#[test]
fn times_are_exact() {
    // 62/63 and 61/62 differ by less than a 64th.
    assert_eq!(ids(&[track(1, 450, 520, 63, 0), track(2, 451, 530, 62, 0)], 1, 1), [2, 1]);
    // 21/62 is above 21/63, which is 1/3.
    let commands = [track(1, 491, 520, 62, 0), track(3, 491, 530, 63, 0), track(2, 511, 540, 3, 0)];
    assert_eq!(ids(&commands, 1, 1), [2, 3, 1]);
}

#[test]
fn one_point_is_an_entry() {
    // The corner (512, 512) is the one point of 1 in the cell (1, 1), at 16. 2 comes there at 16 as well, 3 at 15.
    let falling = track(1, 256, 768, 16, -16);
    assert_eq!(ids(&[falling, track(2, 480, 900, 2, 0), track(3, 497, 920, 1, 0)], 1, 1), [3, 1, 2]);
    assert_eq!(ids(&[falling, track(0, 480, 900, 2, 0), track(3, 497, 920, 1, 0)], 1, 1), [3, 0, 1]);
}

#[test]
fn by_times_of_the_sheet_and_not_by_ages() {
    // They enter the cell (1, 1) at ages 1, 4 and 9, and at the times 21, 14 and 9.
    let (first, second, third) = (late(1, 511, 600, 1, 0, 20), late(2, 508, 700, 1, 0, 10), track(3, 503, 800, 1, 0));
    assert_eq!(ids(&[first, second, third], 1, 1), [3, 2, 1]);
    // At one time, 12, with ages 12, 2 and 0, and one just after that, on the right border; by id.
    let commands = [
        late(9, 512, 600, 1, 0, 12),
        track(7, 500, 700, 1, 0),
        late(8, 510, 800, 1, 0, 10),
        late(3, 1024, 900, -1, 0, 12),
    ];
    assert_eq!(ids(&commands, 1, 1), [3, 7, 8, 9]);
}

#[test]
fn the_first_cell_is_entered_at_the_start_time() {
    // 1 starts in the cell at 30, 2 comes into it at 29, 3 at 30 and 4 at 31.
    let commands =
        [late(1, 600, 600, 1, 0, 30), track(2, 483, 700, 1, 0), track(3, 482, 800, 1, 0), late(4, 510, 900, 1, 0, 29)];
    assert_eq!(ids(&commands, 1, 1), [2, 1, 3, 4]);
    // 6 starts at 5 on the border of two cells and leaves it at once: it enters both at 5, after 7 and before 5.
    let commands = [late(6, 512, 600, -1, 0, 5), late(7, 500, 700, 1, 1, 4), late(5, 509, 900, -1, 0, 6)];
    assert_eq!(ids(&commands, 0, 1), [7, 6, 5]);
    assert_eq!(ids(&commands, 1, 1), [6, 7]);
}

#[test]
fn a_tip_that_ends_as_it_opens_enters_the_cell_of_its_start() {
    // 1 opens on the border of two cells, on the trace of 2, and has no other point.
    let commands = [late(1, 512, 600, -1, 1, 40), track(2, 500, 600, 1, 0), track(3, 100, 100, 1, 0)];
    assert_eq!((ids(&commands, 0, 1), ids(&commands, 1, 1)), (vec![2], vec![2, 1]));
}

fn all_cells(figure: u64) -> impl Iterator<Item = Cell> {
    (0..figure).flat_map(move |column| (0..figure).map(move |row| Cell { column, row }))
}

fn check_entries(records: &Records, figure: u64) {
    for Row { id, time: end, .. } in roll(records) {
        let track = records.tracks.iter().find(|track| track.id == id).expect("a track for each row");
        let expected = entries(track, end, figure);
        for cell in all_cells(figure) {
            let found = entry(track, end, figure, cell);
            assert_eq!(found.as_ref(), expected.get(&cell), "{track:?}, figure {figure}, {cell:?}");
        }
    }
}

#[test]
fn entries_of_chosen_and_made_up_sheets() {
    let mut rng = Rng::new(31);
    let grounds = made_up::GROUNDS.repeat(20);
    let made_up = grounds.iter().map(|ground| sheet::listing(ground.accepted(&mut rng, 12)));
    for sheet in made_up.chain(chosen::endings::sheets()).chain(chosen::late::sheets()) {
        if let Ok(records) = read(&sheet) {
            [1, 2, 4, 8].into_iter().for_each(|figure| check_entries(&records, figure));
        }
    }
}

/// Whether two tips enter the cell at one time, and only one of them is in it then.
fn has_open_beside_closed(records: &Records, figure: u64, cell: Cell) -> bool {
    let rows = roll(records);
    let end_of = |track: &Track| rows.iter().find(|row| row.id == track.id).expect("a row for each track").time;
    let entry = |track: &Track| {
        let time = entry(track, end_of(track), figure, cell)?;
        Some((time, crossings::cell_at(track, time, figure) == cell))
    };
    let entries: Vec<_> = records.tracks.iter().filter_map(entry).collect();
    entries.iter().any(|(time, closed)| entries.contains(&(*time, !closed)))
}

#[test]
fn tips_that_enter_together() {
    enter_together(Rng::new(34), entering);
}

#[test]
fn tips_that_open_late_and_enter_together() {
    enter_together(Rng::new(35), entering_late);
}

fn enter_together(mut rng: Rng, make: fn(&mut Rng) -> Entering) {
    let mut open_beside_closed = 0;
    for _ in 0..400 {
        let Entering { sheet, figure, cell } = make(&mut rng);
        let records = read(&sheet).expect("accepted");
        check_entries(&records, figure);
        open_beside_closed += usize::from(has_open_beside_closed(&records, figure, cell));
        let ids = listing(&records, figure, cell).expect("a cell of the grid");
        if let Some(other) = made_up::in_another_order(&mut rng, &sheet) {
            assert_eq!(listing(&read(&other).expect("accepted"), figure, cell), Ok(ids));
        }
    }
    assert!(open_beside_closed > 200);
}

/// All listings of a sheet under one figure.
fn listings(sheet: &[u8], figure: u64) -> Vec<Vec<u16>> {
    let records = read(sheet).expect("accepted");
    let rows = roll(&records);
    all_cells(figure).map(|cell| ids_in(&records, &rows, figure, cell)).collect()
}

#[test]
fn another_order_has_the_same_listings() {
    let mut rng = Rng::new(32);
    let mut orders = 0;
    for sheet in [chosen::all(), made_up::all(33)].concat() {
        let Some(other) = made_up::in_another_order(&mut rng, &sheet) else { continue };
        let figure = rng.pick(&FIGURES);
        assert_eq!(listings(&other, figure), listings(&sheet, figure), "figure {figure}");
        orders += 1;
    }
    assert!(orders > 2000);
}

#[test]
fn the_one_cell_of_figure_1_lists_all_by_id() {
    let ids = listing(&read(&document::sheet("D")).expect("accepted"), 1, Cell { column: 0, row: 0 });
    assert_eq!(ids, Ok((1..=64).collect()));
}
