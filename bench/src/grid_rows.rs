//! The grid run compared with the plain run and with the same algorithm in Rust, at the six figures: each call less the scan of the bytes.

use crate::sheets::Timed;
use crate::stack::check_in;
use crate::table::{self, head, row};
use crate::timing::least_of_each;
use bench::{grid, selection};
use fissures::{GridRoll, LONGEST_ROLL};
use reference::cells::{counts, FIGURES};
use reference::roll::{roll, roll_bytes};
use std::hint::black_box;

/// The stack that a grid run may use.
const STACK: usize = 1 << 20;

/// Both runs' times, the grid run's at each figure.
struct Times {
    plain: f64,
    grid: [f64; 6],
}

impl Times {
    fn over_plain(&self) -> [f64; 6] {
        self.grid.map(|grid| grid / self.plain)
    }

    fn cells(&self, name: &str, side: &str) -> Vec<String> {
        let times = [self.plain].into_iter().chain(self.grid).map(table::time);
        row(name, [side.to_string()].into_iter().chain(times))
    }

    /// The least ratio to the plain run with its figure, and the ratio at 8.
    fn summary(&self) -> [String; 2] {
        let ratios = self.over_plain();
        let (best, figure) = ratios.into_iter().zip(FIGURES).min_by(|a, b| a.0.total_cmp(&b.0)).expect("six figures");
        [format!("{best:.2} (g = {figure})"), table::ratio(ratios[3])]
    }
}

struct Measured<'a> {
    timed: &'a Timed,
    rust: Times,
    proved: Times,
}

impl Measured<'_> {
    /// The proved times over those in Rust.
    fn ratios(&self) -> [f64; 7] {
        let over = |proved: f64, rust: f64| proved / rust;
        let mut ratios = [over(self.proved.plain, self.rust.plain); 7];
        for (i, ratio) in ratios[1..].iter_mut().enumerate() {
            *ratio = over(self.proved.grid[i], self.rust.grid[i]);
        }
        ratios
    }

    fn lines(&self) -> [Vec<String>; 3] {
        let ratios = ["ratio".to_string()].into_iter().chain(self.ratios().map(table::ratio));
        [self.rust.cells(&self.timed.name(), "in Rust"), self.proved.cells("", "proved"), row("", ratios)]
    }

    fn summary(&self) -> Vec<String> {
        let [least, most] =
            [f64::min, f64::max].map(|of| self.ratios()[1..].iter().copied().reduce(of).expect("six figures"));
        let star = if self.timed.is_full_with_short_traces() { " *" } else { "" };
        let side = format!("1/{:.0}", self.timed.mean_lengths_in_a_side());
        let range = format!("{least:.2} to {most:.2}");
        let cells = [vec![side], self.proved.summary().into(), self.rust.summary().into(), vec![range]];
        row(&(self.timed.name() + star), cells.concat())
    }
}

/// Both give the reference implementation's rows and cells.
fn check(timed: &Timed) {
    let rows = roll(&timed.records);
    let bytes = roll_bytes(&rows);
    for (figure, cells) in FIGURES.into_iter().zip(counts(&timed.records, &rows)) {
        let place = format!("{}, figure {figure}", timed.name());
        let mut out = vec![0; bytes.len()];
        let rust = grid::roll(&timed.records, figure, &mut out);
        assert!(rust == cells as u64 && out == bytes, "{place}: in Rust");
        let mut out = vec![0; bytes.len()];
        let proved = fissures::grid(&timed.bytes, figure, &mut out);
        let expected = Ok(GridRoll { rows: rows.len(), cells: cells as u64 });
        assert!(proved == expected && out == bytes, "{place}: proved");
    }
}

fn measure(timed: &Timed) -> Measured<'_> {
    let Timed { bytes, records, .. } = timed;
    let mut out = [0; LONGEST_ROLL];
    let [rust_plain, scan, call, rest @ ..] = least_of_each::<15>(|call| match call {
        0 => selection::roll(black_box(records), &mut out),
        1 => drop(black_box(fissures::check(black_box(bytes)))),
        2 => drop(black_box(fissures::plain(black_box(bytes), &mut out))),
        3..9 => drop(black_box(grid::roll(black_box(records), FIGURES[call - 3], &mut out))),
        _ => drop(black_box(fissures::grid(black_box(bytes), FIGURES[call - 9], &mut out))),
    });
    let [rust, proved] = [0, 6].map(|from| std::array::from_fn(|i| rest[from + i]));
    let proved = Times { plain: call - scan, grid: proved.map(|time: f64| time - scan) };
    Measured { timed, rust: Times { plain: rust_plain, grid: rust }, proved }
}

pub fn print(sheets: &[Timed]) {
    check_in(STACK, sheets, check);
    let measured: Vec<Measured> = sheets.iter().map(measure).collect();
    println!("## The grid run\n");
    let figures = FIGURES.map(|figure| format!("g = {figure}"));
    let times = ["", "plain run"].map(String::from).into_iter().chain(figures);
    table::print(&head("sheet", times), measured.iter().flat_map(Measured::lines));
    println!("The grid run over the plain run, and over the same algorithm in Rust at any figure; * 256 tracks with short traces.\n");
    let columns = [
        "mean trace in sides",
        "best over plain",
        "at g = 8",
        "in Rust: best",
        "in Rust: at g = 8",
        "proved over Rust",
    ];
    table::print(&head("sheet", columns), measured.iter().map(Measured::summary));
}
