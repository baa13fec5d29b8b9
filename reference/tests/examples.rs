//! The sheets of examples/ as they are stored.

use reference::chosen::{facing, halves, late, sides};
use reference::made_up;
use reference::roll::{roll, Row, Side};
use reference::sheet::read;
use std::fs::{self, File};
use std::path::{Path, PathBuf};
use std::process::Command;

fn folder() -> PathBuf {
    Path::new(env!("CARGO_MANIFEST_DIR")).join("../examples")
}

/// The paths of all sheets, the refused one too.
fn paths() -> Vec<PathBuf> {
    let entries = fs::read_dir(folder()).expect("examples/").map(|entry| entry.expect("an entry").path());
    let sheets: Vec<_> =
        entries.filter(|path| path.extension().is_some_and(|extension| extension == "sheet")).collect();
    assert!(sheets.len() >= 22);
    sheets
}

fn stored(path: &Path) -> Vec<u8> {
    fs::read(path).expect("a file of examples/")
}

#[test]
fn sheets_are_the_chosen_ones() {
    let others = [("sides", sides::example()), ("facing", facing::example()), ("halves", halves::example())];
    for (name, sheet) in late::examples().into_iter().chain(others) {
        assert_eq!(stored(&folder().join(name).with_extension("sheet")), sheet, "{name}");
    }
}

#[test]
fn rolls_are_the_stored_ones() {
    for path in paths() {
        let input = File::open(&path).expect("a sheet");
        let run = Command::new(env!("CARGO_BIN_EXE_vectors")).arg("roll").stdin(input).output().expect("vectors");
        assert!(run.status.success() && run.stdout == stored(&path.with_extension("txt")), "{}", path.display());
    }
}

/// Of accepted sheets.
fn rows(sheets: Vec<Vec<u8>>) -> impl Iterator<Item = Row> {
    sheets.into_iter().filter_map(|sheet| read(&sheet).ok()).flat_map(|records| roll(&records))
}

/// A row has side 0 exactly where it has kind 4 (SHEETS 4.14).
#[test]
fn only_the_edge_has_no_side() {
    let examples = paths().iter().map(|path| stored(path)).collect();
    for row in rows(examples).chain(rows(made_up::all(2))) {
        assert_eq!(row.side == Side::NoSide, row.ending.kind() == 4, "{row}");
    }
}
