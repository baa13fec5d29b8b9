//! The cell listing beside both runs and the reference implementation's listing, from bytes to bytes.

use crate::calls::{compare, Call, Pair, LISTED_FIGURES};
use crate::sheets::{on_ground, Timed};
use crate::stack::check_in;
use crate::table::{self, head, row};
use reference::made_up::WHOLE;

/// The stack that a listing may use.
const STACK: usize = 256 * 1024;

fn cells(timed: &Timed, figure: u64, pair: &Pair) -> [String; 4] {
    let (_, ids) = timed.fullest(figure);
    [ids.to_string(), table::time(pair.proved), table::time(pair.outside), table::ratio(pair.ratio())]
}

fn measure(timed: &Timed) -> Vec<String> {
    let runs = [Call::Plain, Call::Grid(8)];
    let pairs = compare(&[runs, LISTED_FIGURES.map(Call::Cells)].concat(), timed);
    let (runs, listings) = pairs.split_at(runs.len());
    let runs = runs.iter().map(|pair| table::time(pair.proved));
    let listings = LISTED_FIGURES.iter().zip(listings).flat_map(|(figure, pair)| cells(timed, *figure, pair));
    row(&timed.name(), runs.chain(listings))
}

pub fn print(sheets: &[Timed]) {
    check_in(STACK, sheets, |timed| LISTED_FIGURES.map(Call::Cells).into_iter().for_each(|call| call.check(timed)));
    println!("## The cell listing\n");
    println!("Of a cell with the most ids; at g = 1 all tracks are in the one cell. Both runs and the listing from the sheet's bytes to the answer's.\n");
    let listings = LISTED_FIGURES
        .into_iter()
        .flat_map(|figure| ["ids", "proved", "reference", "ratio"].map(|what| format!("g = {figure}: {what}")));
    let columns = ["plain run", "grid run, g = 8"].map(String::from).into_iter().chain(listings);
    let by_id = on_ground("random", &WHOLE, 256, 0).by_id();
    table::print(&head("sheet", columns), sheets.iter().chain(&by_id).map(measure));
}
