//! The proved calls compared with the reference implementation's on random sheets of 2 to 256 tracks: ratios, times, and how the times grow.

use crate::calls::{compare, Call, Pair};
use crate::sheets::on_ground;
use crate::table::{self, head, row};
use reference::made_up::WHOLE;

const SIZES: [usize; 8] = [2, 4, 8, 16, 32, 64, 128, 256];
/// An exponent is fitted from this size on: below it what does not depend on the size counts for much.
const FITTED_FROM: usize = 16;

/// log2 of the ratio of times between each size and its double.
fn doublings(times: &[f64]) -> Vec<f64> {
    times.windows(2).map(|pair| (pair[1] / pair[0]).log2()).collect()
}

/// The slope of log2 time over log2 size, by least squares.
fn fitted(times: &[f64]) -> f64 {
    let points = SIZES.iter().zip(times).filter(|(size, _)| **size >= FITTED_FROM);
    let points: Vec<(f64, f64)> = points.map(|(size, time)| ((*size as f64).log2(), time.log2())).collect();
    let mean = |of: fn(&(f64, f64)) -> f64| points.iter().map(of).sum::<f64>() / points.len() as f64;
    let (x, y) = (mean(|point| point.0), mean(|point| point.1));
    let along: f64 = points.iter().map(|point| (point.0 - x) * (point.1 - y)).sum();
    along / points.iter().map(|point| (point.0 - x).powi(2)).sum::<f64>()
}

/// The times of one call at each size.
struct Measured {
    call: Call,
    pairs: Vec<Pair>,
}

impl Measured {
    fn cells(&self, cell: impl Fn(&Pair) -> String) -> Vec<String> {
        row(&self.call.name(), self.pairs.iter().map(cell))
    }

    fn growth(&self) -> Vec<String> {
        let [proved, outside] = [|pair: &Pair| pair.proved, |pair: &Pair| pair.outside]
            .map(|side| self.pairs.iter().map(side).collect::<Vec<f64>>());
        let fits = [fitted(&proved), fitted(&outside)];
        row(&self.call.name(), doublings(&proved).into_iter().chain(fits).map(table::ratio))
    }
}

/// All calls on sheets of each size, with so many walls for each track.
fn measure(walls: usize) -> Vec<Measured> {
    let calls = Call::all();
    let sheets = SIZES.map(|tracks| on_ground("random", &WHOLE, tracks, walls * tracks));
    let by_size = sheets.map(|timed| compare(&calls, &timed));
    let of =
        |(index, &call): (usize, &Call)| Measured { call, pairs: by_size.iter().map(|pairs| pairs[index]).collect() };
    calls.iter().enumerate().map(of).collect()
}

fn print_sizes(walls: usize, what: &str) {
    let measured = measure(walls);
    println!("### Random sheets {what}\n\nRatio to the reference implementation.\n");
    table::print(&head("tracks", SIZES), measured.iter().map(|calls| calls.cells(|pair| table::ratio(pair.ratio()))));
    println!("Microseconds of the proved call.\n");
    table::print(&head("tracks", SIZES), measured.iter().map(|calls| calls.cells(|pair| table::time(pair.proved))));
    println!("Growth of the proved call: log2 of the ratio of times between a size and its double; the fitted exponent; the reference implementation's.\n");
    let doubled = SIZES.windows(2).map(|pair| format!("{} to {}", pair[0], pair[1]));
    let fits = ["", ", reference"].map(|side| format!("from {FITTED_FROM}{side}"));
    table::print(&head("tracks", doubled.chain(fits)), measured.iter().map(Measured::growth));
}

pub fn print() {
    println!("## Compared with the reference implementation, by size\n");
    println!("From the sheet's bytes to the answer's bytes, on both sides. For a grid run the reference implementation sweeps the plane, and counts the cells of each trace after that. A session step is `fissure_advance` by one row with half of the rows shown: it reads the sheet and works the whole roll out anew by the plain run, of which it writes one row. A cell listing is `fissure_cells` of a cell with the most ids: at g = 1 all tracks are in the one cell.\n");
    print_sizes(0, "without walls");
    print_sizes(1, "with as many walls as tracks");
}
