//! The proved library compared with the reference implementation and with its own algorithms in Rust: same machine, same sheets, one run.
//! Times are the least of many rounds, in microseconds. Ratios are what counts.

mod calls;
mod cell_rows;
mod export_rows;
mod grid_rows;
mod growth;
mod order_rows;
mod plain_rows;
mod sheets;
mod stack;
mod table;
mod timing;

use reference::made_up::WHOLE;
use sheets::Timed;
use std::fs;
use std::path::Path;

/// Each sheet in a file of its own, as `bench/turns` reads them; 2 to 8 tracks too, where what does not depend on the size counts.
fn write_sheets(folder: &Path) -> std::io::Result<()> {
    let small = [2, 4, 8].map(|tracks| sheets::on_ground("random", &WHOLE, tracks, 0));
    let at_zero = |timed: &Timed| timed.records.tracks.iter().all(|track| track.start_time == 0);
    let timed = small.into_iter().chain(sheets::all().into_iter().filter(at_zero));
    timed.enumerate().try_for_each(|(i, timed)| fs::write(folder.join(format!("{i:02} {}", timed.name())), timed.bytes))
}

fn print_all() {
    growth::print();
    order_rows::print();
    let sheets = sheets::all();
    plain_rows::print(&sheets);
    grid_rows::print(&sheets);
    cell_rows::print(&sheets);
    export_rows::print();
}

fn main() -> std::io::Result<()> {
    let words: Vec<String> = std::env::args().skip(1).collect();
    match words.iter().map(String::as_str).collect::<Vec<_>>()[..] {
        [] => print_all(),
        ["--export"] => export_rows::print(),
        ["--sheets", folder] => return write_sheets(Path::new(folder)),
        _ => panic!("bench, bench --export or bench --sheets FOLDER"),
    }
    Ok(())
}
