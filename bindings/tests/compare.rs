//! Each function of the proved library against the reference implementation, on sheets valid and damaged, long and short, with buffers
//! that are too short by one byte, exact, and longer than needed.

use fissures::{numbers, Cell, GridRoll, Place, Row, Session, Shapefile, Side, LONGEST_ROLL, ROW, SHAPEFILES};
use reference::cells::{self, FIGURES};
use reference::chosen;
use reference::made_up::entering::{entering, entering_late, Entering};
use reference::made_up::{self, facing, late, BORDERS, COARSE, SMALL};
use reference::names::place_in;
use reference::refusal::{Refusal, OUTPUT_TOO_SHORT};
use reference::rng::Rng;
use reference::roll::{roll, roll_bytes};
use reference::shapefile::{files, shapes, Layer, Shape};
use reference::sheet::{listing, ordered_form, read, Records};
use std::fmt::Debug;

/// Made-up sheets, many of them with start times, and the shortest ones.
fn sheets(seed: u64) -> Vec<Vec<u8>> {
    let mut sheets = made_up::all(seed);
    sheets.extend([vec![], vec![0], vec![0, 0], vec![1], vec![2], vec![3], vec![4]]);
    sheets
}

fn as_told(refusal: Refusal) -> fissures::Refusal {
    fissures::Refusal { number: refusal.number.into(), place: refusal.place as u64 }
}

/// A buffer with something in it.
fn buffer(room: usize) -> Vec<u8> {
    (0..room).map(|i| (i * 37 + 165) as u8).collect()
}

/// What is expected: the value given with the bytes written, or a refusal.
type Expected<T> = Result<(T, Vec<u8>), Refusal>;

/// Makes the call with buffers of several lengths and looks at all their bytes.
fn compare<T: Debug + PartialEq>(expected: &Expected<T>, call: impl Fn(&mut [u8]) -> Result<T, fissures::Refusal>) {
    let needed = expected.as_ref().map_or(40, |(_, bytes)| bytes.len());
    for room in [0, needed.saturating_sub(1), needed, needed + 1, needed + 64] {
        let before = buffer(room);
        let mut out = before.clone();
        let answer = call(&mut out);
        match expected {
            Err(refusal) => {
                assert_eq!(answer, Err(as_told(*refusal)));
                assert_eq!(out, before);
            }
            Ok((_, bytes)) if room < bytes.len() => {
                assert_eq!(answer, Err(as_told(Refusal { number: OUTPUT_TOO_SHORT, place: bytes.len() })));
                assert_eq!(out, before);
            }
            Ok((value, bytes)) => {
                assert_eq!(answer.as_ref(), Ok(value));
                assert_eq!(out[..bytes.len()], bytes[..]);
                assert_eq!(out[bytes.len()..], before[bytes.len()..]);
            }
        }
    }
}

#[test]
fn check() {
    for sheet in sheets(1) {
        assert_eq!(fissures::check(&sheet), read(&sheet).map(|_| ()).map_err(as_told));
    }
}

#[test]
fn order() {
    for sheet in sheets(2) {
        let form = |records: Records| ordered_form(&records.tracks, &records.walls);
        let expected = read(&sheet).map(form).map(|bytes| (bytes.len(), bytes));
        compare(&expected, |out| fissures::order(&sheet, out));
    }
}

#[test]
fn plain() {
    for sheet in [sheets(3), chosen::sides::sheets(), chosen::halves::sheets()].concat() {
        let expected = read(&sheet).map(|records| roll(&records)).map(|rows| (rows.len(), roll_bytes(&rows)));
        compare(&expected, |out| fissures::plain(&sheet, out));
    }
}

#[test]
fn rows_read_back() {
    for sheet in sheets(3) {
        let Ok(records) = read(&sheet) else { continue };
        let mut out = buffer(LONGEST_ROLL);
        let count = fissures::plain(&sheet, &mut out).expect("room for any roll");
        let rows = roll(&records);
        assert_eq!(count, rows.len());
        for (row, expected) in Row::all(&out).zip(&rows) {
            assert_eq!((row.id(), row.time()), (expected.id, expected.time_in_lowest_terms()));
            assert_eq!((row.kind(), row.partner()), (expected.ending.kind(), expected.ending.partner()));
            assert_eq!((row.x(), row.y()), (expected.x, expected.y));
            assert_eq!(row.side().map(Side::number), Some(expected.side.number()));
            assert_eq!(row.to_string(), expected.to_string());
        }
    }
}

fn by_grid(sheet: &[u8], figure: u64) -> Expected<GridRoll> {
    let records = read(sheet)?;
    let count = cells::cells_entered(&records, figure)?;
    let rows = roll(&records);
    Ok((GridRoll { rows: rows.len(), cells: count as u64 }, roll_bytes(&rows)))
}

#[test]
fn grid() {
    let mut rng = Rng::new(4);
    for sheet in sheets(4) {
        for figure in [rng.pick(&FIGURES), rng.pick(&FIGURES), rng.pick(&[0, 3, 5, 31, 33, 64, u64::MAX])] {
            compare(&by_grid(&sheet, figure), |out| fissures::grid(&sheet, figure, out));
        }
    }
}

fn in_cell(sheet: &[u8], cell: Cell) -> Expected<usize> {
    let Cell { figure, column, row } = cell;
    let ids = cells::listing(&read(sheet)?, figure, cells::Cell { column, row })?;
    Ok((ids.len(), ids.iter().flat_map(|id| id.to_le_bytes()).collect()))
}

#[test]
fn cell_listing() {
    let mut rng = Rng::new(5);
    for sheet in sheets(5) {
        for _ in 0..3 {
            let figure = if rng.one_in(8) { rng.pick(&[0, 3, 33, u64::MAX]) } else { rng.pick(&FIGURES) };
            let place = |rng: &mut Rng| match rng.below(12) {
                0 => figure,
                1 => u64::MAX,
                _ => rng.below(figure.clamp(1, 32) as usize) as u64,
            };
            let cell = Cell { figure, column: place(&mut rng), row: place(&mut rng) };
            compare(&in_cell(&sheet, cell), |out| fissures::cells(&sheet, cell, out));
        }
    }
}

/// The example sheet `cell`, whose picture shows this order.
#[test]
fn cell_listing_of_the_example() {
    let sheet = include_bytes!("../../examples/cell.sheet");
    let listed = |column: u64| {
        let mut out = [0; 8];
        let count = fissures::cells(sheet, Cell { figure: 8, column, row: 1 }, &mut out).expect("room for four ids");
        out.chunks(2).take(count).map(|id| u16::from_le_bytes([id[0], id[1]])).collect::<Vec<_>>()
    };
    assert_eq!([listed(0), listed(1), listed(2)], [vec![4], vec![7, 3, 4, 1], vec![3, 7]]);
}

/// Chosen sheets with start times, the longest among them, and inputs that go on behind those.
#[test]
fn start_times() {
    for sheet in reference::chosen::late::sheets() {
        let form = |records: Records| ordered_form(&records.tracks, &records.walls);
        let expected = read(&sheet).map(form).map(|bytes| (bytes.len(), bytes));
        compare(&expected, |out| fissures::order(&sheet, out));
        // What is read of an input is enough.
        let enough = &sheet[..sheet.len().min(fissures::ENOUGH)];
        assert_eq!(fissures::check(enough), fissures::check(&sheet));
        compare(&by_grid(&sheet, 8), |out| fissures::grid(enough, 8, out));
    }
}

/// Tips that face each other: accepted, and with one roll by both runs, at the six figures and in another order of the commands.
#[test]
fn facing_tips() {
    let mut rng = Rng::new(12);
    let drawn: Vec<_> = (0..3500).map(|number| facing::MAKERS[number % facing::MAKERS.len()](&mut rng)).collect();
    for sheet in drawn.into_iter().chain(reference::chosen::facing::sheets()) {
        let expected = read(&sheet).map(|records| roll(&records)).map(|rows| (rows.len(), roll_bytes(&rows)));
        let other = made_up::in_another_order(&mut rng, &sheet);
        for sheet in [Some(sheet), other].into_iter().flatten() {
            compare(&expected, |out| fissures::plain(&sheet, out));
            for figure in FIGURES {
                compare(&by_grid(&sheet, figure), |out| fissures::grid(&sheet, figure, out));
            }
        }
    }
}

/// Crowded sheets: on cell borders, where tips enter two cells at their start, and snapped to a small field; with start times and with
/// facing tips.
fn crowded(rng: &mut Rng) -> Vec<u8> {
    match rng.below(4) {
        0 => return rng.pick(&late::MAKERS)(rng),
        1 => return rng.pick(&facing::MAKERS)(rng),
        _ => {}
    }
    let (ground, draws) = rng.pick(&[(BORDERS, 60), (BORDERS, 200), (COARSE, 60), (SMALL, 200)]);
    listing(ground.accepted(rng, draws))
}

/// Compares a listing with what is expected; it has the same bytes for another order of the commands.
fn compare_orders(rng: &mut Rng, sheet: &[u8], cell: Cell) {
    let expected = in_cell(sheet, cell);
    compare(&expected, |out| fissures::cells(sheet, cell, out));
    if let Some(other) = made_up::in_another_order(rng, sheet) {
        compare(&expected, |out| fissures::cells(&other, cell, out));
    }
}

#[test]
fn cell_listing_in_two_orders() {
    let mut rng = Rng::new(9);
    for _ in 0..80 {
        let sheet = crowded(&mut rng);
        let figure = rng.pick(&[2, 4, 8, 32]);
        for _ in 0..figure {
            let place = |rng: &mut Rng| rng.below(figure as usize) as u64;
            let cell = Cell { figure, column: place(&mut rng), row: place(&mut rng) };
            compare_orders(&mut rng, &sheet, cell);
        }
    }
}

/// Equal times of entering, many of them with one tip on a border that the cell has and one on a border that it has not.
#[test]
fn cell_listing_of_tips_that_enter_together() {
    let mut rng = Rng::new(10);
    for make in [entering, entering_late] {
        for _ in 0..1000 {
            let Entering { sheet, figure, cell: cells::Cell { column, row } } = make(&mut rng);
            compare_orders(&mut rng, &sheet, Cell { figure, column, row });
        }
    }
}

/// What a sheet's four files should be, in the order of `SHAPEFILES`.
fn by_reference(records: &Records) -> [Vec<u8>; 4] {
    files(records, &roll(records))
}

/// Whether the files have what is special to them: a null shape (SHEETS 12.5), or no point at all (12.6).
fn special(records: &Records) -> (bool, bool) {
    let shapes = shapes(Layer::Traces, records, &roll(records));
    (shapes.contains(&Shape::Null), shapes.is_empty())
}

/// Each file, which has the same bytes for another order of the commands.
#[test]
fn shapefiles() {
    let mut rng = Rng::new(11);
    let (mut longest, mut with_null, mut without_points) = ([0; 4], 0, 0);
    for sheet in sheets(11).into_iter().chain(reference::chosen::all()) {
        let records = read(&sheet);
        let other = made_up::in_another_order(&mut rng, &sheet);
        let expected = records.as_ref().map(by_reference);
        for (i, Shapefile { write, .. }) in SHAPEFILES.into_iter().enumerate() {
            let expected = expected.clone().map(|files| (files[i].len(), files[i].clone())).map_err(|refusal| *refusal);
            compare(&expected, |out| write(&sheet, out));
            if let Some(other) = &other {
                compare(&expected, |out| write(other, out));
            }
            longest[i] = longest[i].max(expected.map_or(0, |(length, _)| length));
        }
        let (null, empty) = records.map_or((false, false), |records| special(&records));
        with_null += usize::from(null);
        without_points += usize::from(empty);
    }
    assert_eq!(longest, SHAPEFILES.map(|file| file.longest));
    assert!(with_null > 500 && without_points > 20, "{with_null} and {without_points} sheets");
}

/// What a call on a session gives: the number stored in `second`, the rows shown then, and the rows written.
struct Step {
    second: usize,
    shown: u64,
    bytes: Vec<u8>,
}

/// Advance by n.
fn advance(sheet: &[u8], shown: u64, n: u64) -> Result<Step, Refusal> {
    let rows = roll(&read(sheet)?);
    let from = rows.len().min(usize::try_from(shown).unwrap());
    let count = (rows.len() - from).min(usize::try_from(n).unwrap());
    Ok(Step { second: count, shown: (from + count) as u64, bytes: roll_bytes(&rows[from..from + count]) })
}

/// Open and reset.
fn start(sheet: &[u8]) -> Result<Step, Refusal> {
    read(sheet).map(|_| Step { second: 0, shown: 0, bytes: vec![] })
}

/// The number still running.
fn running(sheet: &[u8], shown: u64) -> Result<Step, Refusal> {
    let rows = roll(&read(sheet)?);
    let left = rows.len().saturating_sub(usize::try_from(shown).unwrap());
    Ok(Step { second: left, shown, bytes: vec![] })
}

/// Makes a call on slices of no number, one and three, and looks at all their numbers, at the answer and at all bytes of the buffers.
fn compare_steps(
    expected: &Result<Step, Refusal>,
    shown: u64,
    call: impl Fn(&mut [u64], &mut [u8]) -> Result<usize, fissures::Refusal>,
) {
    for before in [&[][..], &[shown], &[shown, 77, u64::MAX]] {
        let then = |step: &Step| [&[step.shown], &before[1..]].concat();
        let expected = match expected {
            Err(refusal) => Err(*refusal),
            Ok(_) if before.is_empty() => Err(Refusal { number: OUTPUT_TOO_SHORT, place: numbers::SIZE }),
            Ok(step) => Ok(((step.second, then(step)), step.bytes.clone())),
        };
        compare(&expected, |out| {
            let mut session = before.to_vec();
            let answer = call(&mut session, out);
            assert!(answer.is_ok() || session == before, "a refusal leaves the session as it came");
            answer.map(|second| (second, session))
        });
    }
}

#[test]
fn sessions() {
    let mut rng = Rng::new(6);
    for sheet in sheets(6) {
        for _ in 0..3 {
            let number = |rng: &mut Rng| rng.pick(&[0, 1, 2, 3, 5, 8, 20, 200, 256, 257, u64::MAX]);
            let (shown, n) = (number(&mut rng), number(&mut rng));
            compare_steps(&advance(&sheet, shown, n), shown, |session, out| numbers::advance(&sheet, session, n, out));
            compare_steps(&start(&sheet), shown, |session, _| numbers::open(&sheet, session));
            compare_steps(&start(&sheet), shown, |session, _| numbers::reset(&sheet, session));
            compare_steps(&running(&sheet, shown), shown, |session, _| numbers::running(&sheet, session));
        }
    }
}

#[test]
fn step_by_step() {
    let mut rng = Rng::new(7);
    for sheet in sheets(7) {
        let Ok(mut session) = Session::open(&sheet) else { continue };
        let rows = roll(&read(&sheet).expect("accepted"));
        for _ in 0..2 {
            let (mut shown, mut out) = (Vec::<u8>::new(), vec![0; LONGEST_ROLL]);
            loop {
                assert_eq!(session.running(), Ok(rows.len() - shown.len() / ROW));
                let count = session.advance(1 + rng.below(9) as u64, &mut out).expect("room for any roll");
                shown.extend(&out[..count * ROW]);
                if count == 0 {
                    break;
                }
            }
            assert_eq!(shown, roll_bytes(&rows));
            assert_eq!(session.reset(), Ok(()));
        }
    }
}

fn place(tracks: &[u8], walls: &[u8], kind: u64, partner: u64) -> Place {
    let (number, list) = if kind == 3 { (Place::WALLS, walls) } else { (Place::TRACKS, tracks) };
    let found = u16::try_from(partner).ok().filter(|_| (1..=3).contains(&kind)).and_then(|id| place_in(list, id));
    match found {
        Some((start, size)) => Place { list: number, start, size },
        None => Place { list: Place::TRACKS, start: 0, size: 0 },
    }
}

/// Entries of a few ids, often twice, with names of any length; now and then cut short.
fn name_list(rng: &mut Rng) -> Vec<u8> {
    let mut list = Vec::new();
    for _ in 0..rng.below(6) {
        let id = rng.pick(&[0, 1, 2, 3, 256, 257, 65535_u16]);
        let size = rng.pick(&[0, 1, 2, 5, 255]);
        list.extend(id.to_le_bytes());
        list.push(size);
        list.extend((0..size).map(|_| rng.below(4) as u8));
    }
    if rng.one_in(3) {
        list.truncate(rng.below(list.len() + 1));
    }
    list
}

#[test]
fn names() {
    let mut rng = Rng::new(8);
    for _ in 0..3000 {
        let (tracks, walls) = (name_list(&mut rng), name_list(&mut rng));
        for kind in [0, 1, 2, 3, 4, 5, 257, 1 << 32, u64::MAX] {
            let partner = rng.pick(&[0, 1, 2, 3, 256, 257, 65535, 65536, 65537, 1 << 32, u64::MAX]);
            let expected = place(&tracks, &walls, kind, partner);
            assert_eq!(fissures::name_place(&tracks, &walls, kind, partner), expected);
            let list = if expected.list == Place::TRACKS { &tracks } else { &walls };
            let part = &list[expected.start..expected.start + expected.size];
            let name = fissures::name(&tracks, &walls, kind, partner);
            assert_eq!((name, name.as_ptr()), (part, part.as_ptr()));
        }
    }
}
