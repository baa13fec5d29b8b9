//! No call takes more stack than fissures.h says.

use fissures::{Cell, Session, LONGEST_CELL, LONGEST_ROLL, LONGEST_SHEET, SHAPEFILES};
use reference::cells::FIGURES;
use reference::made_up::WHOLE;
use reference::rng::Rng;
use reference::sheet::{listing, Command};

/// What is enough for any call.
const STACK: usize = 256 * 1024;

/// All calls on a sheet, but for the names.
fn calls(sheet: &[u8]) {
    let mut out = vec![0; LONGEST_ROLL];
    fissures::check(sheet).expect("an accepted sheet");
    fissures::order(sheet, &mut out[..LONGEST_SHEET]).expect("room for any sheet");
    fissures::plain(sheet, &mut out).expect("room for any roll");
    for figure in FIGURES {
        fissures::grid(sheet, figure, &mut out).expect("room for any roll");
        let cell = Cell { figure, column: 0, row: 0 };
        fissures::cells(sheet, cell, &mut out[..LONGEST_CELL]).expect("room for any cell");
    }
    for file in SHAPEFILES {
        file.of(sheet).expect("room for any sheet");
    }
    let mut session = Session::open(sheet).expect("an accepted sheet");
    session.advance(u64::MAX, &mut out).expect("room for any roll");
    session.running().expect("an open session");
    session.reset().expect("an open session");
}

/// 256 tracks all over the sheet, so that a call that chooses between the runs takes the one with the larger tables; without walls and
/// with many.
fn spread() -> [Vec<u8>; 2] {
    let all = WHOLE.accepted(&mut Rng::new(1), 1000);
    let tracks: Vec<Command> = all.iter().copied().filter(|command| command.as_track().is_some()).collect();
    assert_eq!(tracks.len(), 256, "as many tracks as a sheet holds");
    [tracks, all].map(listing)
}

/// A call that takes more ends the program.
#[test]
fn every_call() {
    let sheets = reference::chosen::late::sheets().into_iter().chain(spread());
    for sheet in sheets.filter(|sheet| fissures::check(sheet).is_ok()) {
        std::thread::scope(|scope| {
            let thread = std::thread::Builder::new().stack_size(STACK);
            thread.spawn_scoped(scope, || calls(&sheet)).expect("a thread");
        });
    }
}
