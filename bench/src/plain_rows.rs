//! The plain run compared with the same algorithm in Rust and with the reference implementation's sweep: its call less the scan of the bytes.

use crate::sheets::Timed;
use crate::stack::check_in;
use crate::table::{self, head, row};
use crate::timing::least_of_each;
use bench::selection;
use fissures::LONGEST_ROLL;
use std::hint::black_box;

/// The stack that a plain run may use.
const STACK: usize = 512 * 1024;

fn check(timed: &Timed) {
    let rows = fissures::plain(&timed.bytes, &mut vec![0; LONGEST_ROLL]);
    assert_eq!(rows, Ok(timed.records.tracks.len()));
}

fn measure(timed: &Timed) -> Vec<String> {
    let (name, bytes, records) = (timed.name(), &timed.bytes, &timed.records);
    let (mut ours, mut theirs) = ([0; LONGEST_ROLL], [0; LONGEST_ROLL]);
    let rows = fissures::plain(bytes, &mut ours);
    selection::roll(records, &mut theirs);
    assert!(rows == Ok(records.tracks.len()) && ours == theirs, "{name}: rolls differ");
    let [scan, call, rust, sweep] = least_of_each(|call| match call {
        0 => drop(black_box(fissures::check(black_box(bytes)))),
        1 => drop(black_box(fissures::plain(black_box(bytes), &mut ours))),
        2 => selection::roll(black_box(records), &mut theirs),
        _ => drop(black_box(reference::roll::roll(black_box(records)))),
    });
    let proved = call - scan;
    let cells = [proved, rust, proved / rust, sweep, proved / sweep];
    let print = [table::time, table::time, table::ratio, table::time, table::ratio];
    row(&name, cells.into_iter().zip(print).map(|(cell, print)| print(cell)))
}

pub fn print(sheets: &[Timed]) {
    check_in(STACK, sheets, check);
    println!("## The plain run\n");
    table::print(&head("sheet", ["proved", "same algorithm", "ratio", "sweep", "ratio"]), sheets.iter().map(measure));
}
