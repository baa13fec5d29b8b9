//! The shapefiles beside both runs, each from the sheet's bytes to its own.

use crate::calls::{compare, Call};
use crate::sheets::{on_ground, with_short_traces, Timed};
use crate::table::{self, head, row};
use reference::made_up::WHOLE;

const SIZES: [usize; 4] = [2, 16, 64, 256];
const RUNS: [Call; 2] = [Call::Plain, Call::Grid(8)];

fn measure(timed: Timed) -> Vec<String> {
    let pairs = compare(&[&RUNS[..], &Call::exports()].concat(), &timed);
    let times: Vec<f64> = pairs.iter().map(|pair| pair.proved).collect();
    let (runs, exports) = times.split_at(RUNS.len());
    let faster = runs.iter().copied().reduce(f64::min).expect("two runs");
    let ratios = exports.iter().map(|time| table::ratio(time / faster));
    row(&timed.name(), runs.iter().copied().map(table::time).chain(ratios))
}

pub fn print() {
    println!("## The export\n");
    println!("Microseconds of both runs; each shapefile as a ratio to the faster of the two. A call reads the sheet and works its roll out, as a run does.\n");
    let random = SIZES.map(|tracks| on_ground("random", &WHOLE, tracks, 0));
    let short = SIZES.map(|tracks| with_short_traces(tracks, 0));
    let columns = RUNS.into_iter().chain(Call::exports()).map(Call::name);
    table::print(&head("sheet", columns), random.into_iter().chain(short).map(measure));
}
