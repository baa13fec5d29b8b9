//! One cell with its cell listing: the tracks in the order in which they enter it (SHEETS 6.10). The order is worked out by `reference/`
//! from the program's roll, for illustration: what counts is the library's listing.

use crate::decimals::Decimals;
use crate::legend;
use crate::trace::Trace;
use crate::view::View;
use reference::cells::{entry, ids_in, side, Cell};
use reference::fraction::Fraction;
use reference::roll::Row;
use reference::sheet::Records;

/// A trace with the time at which it enters the cell.
struct Entry {
    trace: Trace,
    time: Fraction,
}

pub struct Listed {
    figure: u64,
    cell: Cell,
    entries: Vec<Entry>,
}

impl Listed {
    pub fn new(traces: &[Trace], figure: u64, cell: Cell) -> Listed {
        let records = Records { tracks: traces.iter().map(|trace| trace.track).collect(), walls: vec![] };
        let rows: Vec<Row> = traces.iter().map(|trace| trace.row).collect();
        let entry_of = |id: u16| {
            let trace = *traces.iter().find(|trace| trace.row.id == id)?;
            Some(Entry { trace, time: entry(&trace.track, trace.row.time, figure, cell)? })
        };
        let entries = ids_in(&records, &rows, figure, cell).into_iter().filter_map(entry_of).collect();
        Listed { figure, cell, entries }
    }

    /// The cell in a colour of its own.
    pub fn area(&self) -> String {
        let side = side(self.figure);
        let (x, y) = (self.cell.column * side, self.cell.row * side);
        let colour = legend::LISTED;
        format!("<rect x=\"{x}\" y=\"{y}\" width=\"{side}\" height=\"{side}\" fill=\"{colour}\"/>\n")
    }

    /// A ring where each tip is when it enters the cell; a pointer resting on it shows the place in the listing.
    pub fn rings(&self, view: &View) -> String {
        let ring = |(index, Entry { trace, time }): (usize, &Entry)| {
            let ((x, y), (num, den)) = (trace.track.at(*time), time.lowest());
            let words = format!("{}. track {} enters at {num}/{den}", index + 1, trace.row.id);
            let (x, y, r, width) = (x.units(), y.units(), view.tenths(60), view.tenths(15));
            format!(
                "<circle cx=\"{x}\" cy=\"{y}\" r=\"{r}\" fill=\"none\" stroke=\"{}\" stroke-width=\"{width}\" \
                 pointer-events=\"all\"><title>{words}</title></circle>\n",
                legend::RING
            )
        };
        self.entries.iter().enumerate().map(ring).collect()
    }

    /// The cell, and a line for each track of its listing.
    pub fn lines(&self) -> Vec<String> {
        let Cell { column, row } = self.cell;
        let words = |Entry { trace, time }: &Entry| {
            let (num, den) = time.lowest();
            format!("{}, enters at {num}/{den}", trace.row.id)
        };
        [format!("cell {column} {row} lists:")].into_iter().chain(self.entries.iter().map(words)).collect()
    }
}
