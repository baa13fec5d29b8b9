//! The grid run's own algorithm in Rust, in machine words, for the ratio of speeds. At most one event is pending for each tip: the sooner of
//! its next cell entry and its best cause. Two tips are looked at together when the second of them enters a cell of the first.

use crate::causes::{at_track, at_wall, edge, write_row, Cause, Time, NO_CAUSE};
use crate::queue::{Key, Queue, NO_KEY};
use reference::roll::Row;
use reference::sheet::{Records, Track, Wall};

const TIPS: usize = 256;
const CELLS: usize = 1024;
/// A trace has at most 2 × 32 − 1 cells.
const ENTRIES: usize = 63 * TIPS;
const NONE: u16 = u16::MAX;

/// At one time closed cell entries leave first, then what is reached, then open cell entries.
const CLOSED: u8 = 0;
const REACHED: u8 = 1;
const OPEN: u8 = 2;

#[derive(Clone, Copy)]
struct Cell {
    column: i64,
    row: i64,
}

/// From which age on a border has been passed: with num / den itself, or just after it. 1 / 0 is never.
#[derive(Clone, Copy)]
struct Onset {
    num: i64,
    den: i64,
    late: u8,
}

impl Onset {
    fn prior(self, other: Onset) -> bool {
        let (a, b) = (self.num * other.den, other.num * self.den);
        a < b || a == b && self.late < other.late
    }
}

/// Leaving column k, or row k, of this side.
fn exit(x: u16, v: i8, side: i64, k: i64) -> Onset {
    let (x, v) = (i64::from(x), i64::from(v));
    if v < 0 {
        Onset { num: x - k * side, den: -v, late: OPEN }
    } else {
        Onset { num: (k + 1) * side - x, den: v, late: CLOSED }
    }
}

fn onward(v: i8, k: i64) -> i64 {
    if v < 0 {
        k - 1
    } else {
        k + 1
    }
}

/// The next cell of tip a after `cell`, and the age at which it is entered.
fn next_entry(a: &Track, side: i64, cell: Cell) -> (Onset, Cell) {
    let (out_x, out_y) = (exit(a.x, a.vx, side, cell.column), exit(a.y, a.vy, side, cell.row));
    let (column, row) = (onward(a.vx, cell.column), onward(a.vy, cell.row));
    if out_x.prior(out_y) {
        (out_x, Cell { column, ..cell })
    } else if out_y.prior(out_x) {
        (out_y, Cell { row, ..cell })
    } else {
        (out_x, Cell { column, row })
    }
}

/// The cell and the wall's box have a point in common.
fn box_meets(w: &Wall, side: i64, cell: Cell) -> bool {
    let (left, low) = (cell.column * side, cell.row * side);
    i64::from(w.ax.min(w.bx)) < left + side
        && left <= i64::from(w.ax.max(w.bx))
        && i64::from(w.ay.min(w.by)) < low + side
        && low <= i64::from(w.ay.max(w.by))
}

struct Run<'a> {
    records: &'a Records,
    figure: i64,
    side: i64,
    best: &'a mut [Cause; TIPS],
    /// The first of the edge and the walls looked at so far.
    base: &'a mut [Cause; TIPS],
    cell: &'a mut [Cell; TIPS],
    ended: &'a mut [bool; TIPS],
    looked: &'a mut [[bool; TIPS]; TIPS],
    /// Which tips have entered each cell: the newest entry of a cell, each entry's tip, and the one before it in its cell.
    newest: &'a mut [u16; CELLS],
    tip: &'a mut [u16; ENTRIES],
    older: &'a mut [u16; ENTRIES],
    entered: usize,
    queue: Queue<'a>,
}

impl<'a> Run<'a> {
    fn track(&self, i: usize) -> &'a Track {
        &self.records.tracks[i]
    }

    /// The tip has ended before it got to where the cause says that it had been.
    fn void(&self, cause: &Cause) -> bool {
        self.ended[cause.who] && cause.reached.order(self.best[cause.who].at).is_gt()
    }

    /// When the tip ended, if it has.
    fn end(&self, i: usize) -> Option<Time> {
        self.ended[i].then_some(self.best[i].at)
    }

    fn reached_key(&self, i: usize) -> Key {
        let at = self.best[i].at;
        Key { num: at.num, den: at.den, late: REACHED, id: self.track(i).id }
    }

    /// The sooner of the next cell entry and the best cause.
    fn push(&mut self, i: usize) {
        let Track { id, start_time, .. } = *self.track(i);
        let (Onset { num, den, late }, _) = next_entry(self.track(i), self.side, self.cell[i]);
        let entry = Key { num: num + i64::from(start_time) * den, den, late, id };
        let reached = self.reached_key(i);
        let key = if entry.leaves_before(&reached) { entry } else { reached };
        self.queue.push(i, key);
    }

    fn look_at_walls(&mut self, i: usize) {
        let a = self.track(i);
        for (who, w) in self.records.walls.iter().enumerate() {
            if box_meets(w, self.side, self.cell[i]) {
                if let Some(cause) = at_wall(a, who, w) {
                    self.base[i] = self.base[i].least(cause);
                }
            }
        }
        self.best[i] = self.best[i].least(self.base[i]);
    }

    /// Each of the two is offered the other.
    fn look_at_pair(&mut self, i: usize, j: usize) {
        self.looked[i][j] = true;
        self.looked[j][i] = true;
        let (a, b) = (self.track(i), self.track(j));
        if let Some(cause) = at_track(a, j, b, self.end(j)) {
            self.best[i] = self.best[i].least(cause);
        }
        if self.ended[j] {
            return;
        }
        // Tip i has not ended, since it enters a cell.
        if let Some(cause) = at_track(b, i, a, None) {
            self.best[j] = self.best[j].least(cause);
            let key = self.reached_key(j);
            if key.leaves_before(&self.queue.key(j)) {
                self.queue.lower(j, key);
            }
        }
    }

    fn look_at_members(&mut self, i: usize, cell: usize) {
        let mut entry = self.newest[cell];
        while entry != NONE {
            let j = usize::from(self.tip[usize::from(entry)]);
            if !self.looked[i][j] {
                self.look_at_pair(i, j);
            }
            entry = self.older[usize::from(entry)];
        }
    }

    fn join(&mut self, i: usize, cell: usize) {
        self.tip[self.entered] = i as u16;
        self.older[self.entered] = self.newest[cell];
        self.newest[cell] = self.entered as u16;
        self.entered += 1;
    }

    fn enter(&mut self, i: usize, cell: Cell) {
        self.cell[i] = cell;
        let number = (cell.column * self.figure + cell.row) as usize;
        self.look_at_walls(i);
        self.look_at_members(i, number);
        self.join(i, number);
        self.push(i);
    }

    /// All that was looked at, once more.
    fn look_again(&mut self, i: usize) {
        let mut best = self.base[i];
        for (j, b) in self.records.tracks.iter().enumerate() {
            if self.looked[i][j] {
                if let Some(cause) = at_track(self.track(i), j, b, self.end(j)) {
                    best = best.least(cause);
                }
            }
        }
        self.best[i] = best;
        self.push(i);
    }

    /// All tips stand in the cells of their starts from the first on, also those that open later.
    fn start(&mut self) {
        for i in 0..self.records.tracks.len() {
            let a = self.track(i);
            let cell = Cell { column: i64::from(a.x) / self.side, row: i64::from(a.y) / self.side };
            self.base[i] = edge(a);
            self.best[i] = self.base[i];
            self.enter(i, cell);
        }
    }

    fn events(&mut self, out: &mut [u8]) {
        let mut rows = 0;
        while let Some(i) = self.queue.pop() {
            if self.queue.key(i).late != REACHED {
                let (_, cell) = next_entry(self.track(i), self.side, self.cell[i]);
                self.enter(i, cell);
            } else if self.best[i].class == 0 && self.void(&self.best[i]) {
                self.look_again(i);
            } else {
                self.best[i] = self.best[i].lowest();
                self.ended[i] = true;
                write_row(&mut out[rows * Row::LENGTH..][..Row::LENGTH], self.track(i), &self.best[i]);
                rows += 1;
            }
        }
    }
}

/// Writes the roll's rows and gives the cells entered. The figure is one of the six.
pub fn roll(records: &Records, figure: u64, out: &mut [u8]) -> u64 {
    let (mut heap, mut place, mut keys) = ([0; TIPS], [TIPS; TIPS], [NO_KEY; TIPS]);
    let mut run = Run {
        records,
        figure: figure as i64,
        side: 4096 / figure as i64,
        best: &mut [NO_CAUSE; TIPS],
        base: &mut [NO_CAUSE; TIPS],
        cell: &mut [Cell { column: 0, row: 0 }; TIPS],
        ended: &mut [false; TIPS],
        looked: &mut [[false; TIPS]; TIPS],
        newest: &mut [NONE; CELLS],
        tip: &mut [0; ENTRIES],
        older: &mut [0; ENTRIES],
        entered: 0,
        queue: Queue::new(&mut heap, &mut place, &mut keys),
    };
    run.start();
    run.events(out);
    run.entered as u64
}
