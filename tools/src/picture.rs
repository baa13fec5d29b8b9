//! A sheet and its traces as SVG. Walls, traces and end points are in units of the sheet, turned
//! so that y goes upwards; ids and the legend are in pixels.

use crate::decimals::Decimals;
use crate::ids;
use crate::legend::{self, Legend};
use crate::listed::Listed;
use crate::room::Room;
use crate::rounded;
use crate::sides;
use crate::trace::Trace;
use crate::view::{in_64ths, place, Place, View};
use reference::cells::{side, Cell};
use reference::fraction::Fraction;
use reference::roll::{Ending, Side};
use reference::sheet::Wall;
use std::collections::BTreeSet;

/// What the picture shows besides the traces and walls.
#[derive(Clone, Debug, Default)]
pub struct Options {
    /// The figure of the grid to draw.
    pub grid: Option<u64>,
    /// The cell of that grid whose listing is shown.
    pub cell: Option<Cell>,
    /// The part of the sheet to show, else all that is drawn.
    pub view: Option<View>,
    pub notes: Vec<Note>,
}

/// Words in the drawing, their middle at a point of the sheet given in units.
#[derive(Clone, Debug)]
pub struct Note {
    pub x: u16,
    pub y: u16,
    pub words: String,
}

/// The picture.
pub fn draw(walls: &[Wall], traces: &[Trace], options: Options) -> String {
    let cells = |&figure: &u64| traces.iter().flat_map(move |trace| trace.cells(figure));
    let shaded: BTreeSet<Cell> = options.grid.iter().flat_map(cells).collect();
    let listed = options.grid.zip(options.cell).map(|(figure, cell)| Listed::new(traces, figure, cell));
    let corners = corners(shaded.iter().chain(&options.cell), options.grid);
    let view = options.view.unwrap_or_else(|| View::around(&points(walls, traces, &corners)));
    let lines = listed.as_ref().map_or_else(Vec::new, Listed::lines);
    let sides = traces.iter().any(|trace| trace.row.side != Side::NoSide);
    let legend = Legend::new(options.grid, traces.iter().any(Trace::is_late), sides, &lines);
    let legend = if view.is_close() { legend.with_64ths() } else { legend };
    let (wide, high) = (view.size().0.pixels(), view.size().1.pixels());
    let mut svg = head(&view, &legend);
    svg += &sheet(&view, "fill=\"#fff\"");
    svg += &grid(&shaded, listed.as_ref(), options.grid, &view);
    svg += &close(&view, || rounded::lines(&view));
    svg += &edge(&view);
    svg += &wall_lines(walls, &view);
    svg += &trace_lines(traces, &view);
    svg += &close(&view, || rounded::marks(traces, &view));
    svg += &marks(traces, &view);
    svg += &listed.as_ref().map_or_else(String::new, |listed| listed.rings(&view));
    svg += "</g>\n</svg>\n";
    svg += &format!("<rect width=\"{wide}\" height=\"{high}\" fill=\"none\" stroke=\"#ccc\"/>\n");
    let mut room = Room::new(walls, traces, &view);
    svg += &ids::draw(walls, traces, &mut room);
    svg += &sides::draw(traces, &mut room);
    svg += &close(&view, || rounded::numbers(&mut room));
    svg += &notes(&options.notes, &view);
    svg += &legend.draw(&wide);
    svg + "</svg>\n"
}

/// The beginning of the picture, with what is around its drawing.
fn head(view: &View, legend: &Legend) -> String {
    let (width, height) = view.size();
    let (wide, high) = (width.pixels(), height.pixels());
    let total = (width + Fraction::whole(legend::WIDTH)).pixels();
    let total_high = height.max(Fraction::whole(legend.height() as i128)).pixels();
    format!(
        "<svg xmlns=\"http://www.w3.org/2000/svg\" width=\"{total}\" height=\"{total_high}\" \
         font-family=\"sans-serif\" font-size=\"11\">\n\
         <rect width=\"{total}\" height=\"{total_high}\" fill=\"#fff\"/>\n\
         <rect width=\"{wide}\" height=\"{high}\" fill=\"{}\"/>\n\
         <svg width=\"{wide}\" height=\"{high}\" viewBox=\"{}\">\n<g transform=\"scale(1 -1)\">\n",
        legend::OUTSIDE,
        view.view_box()
    )
}

/// What only a close view has.
fn close(view: &View, draw: impl FnOnce() -> String) -> String {
    if view.is_close() {
        draw()
    } else {
        String::new()
    }
}

/// Lower left and upper right corners of the cells.
fn corners<'a>(cells: impl Iterator<Item = &'a Cell>, figure: Option<u64>) -> Vec<(i64, i64)> {
    let side = 64 * side(figure.unwrap_or(1));
    let both =
        |cell: &Cell| [0, 1].map(|more| (((cell.column + more) * side) as i64, ((cell.row + more) * side) as i64));
    cells.flat_map(both).collect()
}

/// All points that the view is to hold.
fn points(walls: &[Wall], traces: &[Trace], corners: &[(i64, i64)]) -> Vec<(i64, i64)> {
    let mut points = corners.to_vec();
    for wall in walls {
        points.extend([in_64ths(wall.ax, wall.ay), in_64ths(wall.bx, wall.by)]);
    }
    for trace in traces {
        points.push(in_64ths(trace.track.x, trace.track.y));
        points.push((trace.row.x.into(), trace.row.y.into()));
    }
    points
}

/// The shaded cells, the one whose listing is shown, and the lines of the grid.
fn grid(shaded: &BTreeSet<Cell>, listed: Option<&Listed>, figure: Option<u64>, view: &View) -> String {
    let Some(figure) = figure else { return String::new() };
    let side = side(figure);
    let mut text = format!("<g fill=\"{}\">\n", legend::TOUCHED);
    for Cell { column, row } in shaded {
        let (x, y) = (column * side, row * side);
        text += &format!("<rect x=\"{x}\" y=\"{y}\" width=\"{side}\" height=\"{side}\"/>\n");
    }
    text += &listed.map_or_else(String::new, Listed::area);
    text += &format!("</g>\n<g stroke=\"{}\" stroke-width=\"{}\">\n", legend::GRID, view.tenths(7));
    for place in (0..=figure).map(|index| index * side) {
        text += &format!("<path d=\"M{place} 0V4096M0 {place}H4096\"/>\n");
    }
    text + "</g>\n"
}

/// The rectangle of the sheet, as far as the view shows it.
fn sheet(view: &View, style: &str) -> String {
    let [left, bottom, right, top] = view.sheet();
    let units = |value: i64| Fraction::new(value, 64).units();
    let (wide, high) = (units(right - left), units(top - bottom));
    let (left, bottom) = (units(left), units(bottom));
    format!("<rect x=\"{left}\" y=\"{bottom}\" width=\"{wide}\" height=\"{high}\" {style}/>\n")
}

fn edge(view: &View) -> String {
    let style = format!(
        "fill=\"none\" stroke=\"#999\" stroke-width=\"{}\" stroke-dasharray=\"{} {}\"",
        view.tenths(10),
        view.tenths(40),
        view.tenths(30)
    );
    sheet(view, &style)
}

/// The walls with an arrowhead at b, since a side is seen from a to b (SHEETS 4.14).
fn wall_lines(walls: &[Wall], view: &View) -> String {
    let mut text = legend::ARROWHEAD.to_string();
    text += &format!("<g stroke=\"#000\" stroke-width=\"{}\" {}>\n", view.tenths(30), legend::AT_B);
    for Wall { ax, ay, bx, by, .. } in walls {
        text += &line(place(*ax, *ay), place(*bx, *by), view);
    }
    text + "</g>\n"
}

/// The traces to their exact ends.
fn trace_lines(traces: &[Trace], view: &View) -> String {
    let mut text = format!("<g stroke=\"#555\" stroke-width=\"{}\">\n", view.tenths(14));
    for trace in traces {
        text += &line(trace.start(), trace.end(), view);
    }
    text + "</g>\n"
}

fn line(from: Place, to: Place, view: &View) -> String {
    let Some(((x1, y1), (x2, y2))) = view.near(from, to) else { return String::new() };
    let [x1, y1, x2, y2] = [x1, y1, x2, y2].map(Fraction::units);
    format!("<line x1=\"{x1}\" y1=\"{y1}\" x2=\"{x2}\" y2=\"{y2}\"/>\n")
}

/// The starts, late ones hollow, and the end points coloured by kind.
fn marks(traces: &[Trace], view: &View) -> String {
    let mut text = "<g fill=\"#555\">\n".to_string();
    let near = |trace: &&Trace| !trace.is_late() && view.is_near(trace.start());
    for Trace { track, .. } in traces.iter().filter(near) {
        text += &format!("<circle cx=\"{}\" cy=\"{}\" r=\"{}\"/>\n", track.x, track.y, view.tenths(20));
    }
    text += "</g>\n";
    text += &late_starts(traces, view);
    for (index, trace) in traces.iter().enumerate().filter(|(_, trace)| view.is_near(trace.end())) {
        let (x, y) = trace.end();
        text += &format!(
            "<circle cx=\"{}\" cy=\"{}\" r=\"{}\" fill=\"{}\"{}><title>{}</title></circle>\n",
            x.units(),
            y.units(),
            view.tenths(radius(&traces[index..], (x, y))),
            legend::COLOURS[usize::from(trace.row.ending.kind()) - 1],
            border(&traces[..index], trace, view),
            ending(trace)
        );
    }
    text
}

/// How often the kind changes among the endings at this point.
fn changes(traces: &[Trace], point: Place) -> usize {
    let there = traces.iter().filter(|trace| trace.end() == point);
    let kinds: Vec<u8> = there.map(|trace| trace.row.ending.kind()).collect();
    kinds.windows(2).filter(|pair| pair[0] != pair[1]).count()
}

/// The radius of the first of these endings' marks at this point, in tenths of a pixel: larger where others of another kind follow, so that
/// it is seen as a ring around theirs.
fn radius(traces: &[Trace], point: Place) -> i64 {
    40 + 25 * changes(traces, point).min(3) as i64
}

/// The white border of a mark that stands in a ring.
fn border(before: &[Trace], trace: &Trace, view: &View) -> String {
    let kind = |trace: &Trace| trace.row.ending.kind();
    if before.iter().any(|other| other.end() == trace.end() && kind(other) != kind(trace)) {
        format!(" stroke=\"#fff\" stroke-width=\"{}\"", view.tenths(16))
    } else {
        String::new()
    }
}

/// A hollow dot at each late start, wide enough for the marks of tips that end there; a pointer resting on it shows
/// the time.
fn late_starts(traces: &[Trace], view: &View) -> String {
    let near = |trace: &&Trace| trace.is_late() && view.is_near(trace.start());
    let late: Vec<_> = traces.iter().filter(near).collect();
    if late.is_empty() {
        return String::new();
    }
    let mut text = format!("<g fill=\"#fff\" stroke=\"#555\" stroke-width=\"{}\">\n", view.tenths(12));
    for trace in late {
        let track = trace.track;
        text += &format!(
            "<circle cx=\"{}\" cy=\"{}\" r=\"{}\"><title>track {} starts at {}</title></circle>\n",
            track.x,
            track.y,
            view.tenths(10 + radius(traces, trace.start())),
            track.id,
            track.start_time
        );
    }
    text + "</g>\n"
}

/// An ending in words, shown where the pointer rests on its mark.
fn ending(trace: &Trace) -> String {
    let row = trace.row;
    let cause = match row.ending {
        Ending::Track(id) => format!("trace {id}"),
        Ending::Meeting(id) => format!("tip {id}"),
        Ending::Wall(id) => format!("wall {id}"),
        Ending::Edge => "the edge".to_string(),
    };
    let side = match row.side {
        Side::NoSide => "",
        Side::Left => " from its left",
        Side::Right => " from its right",
        Side::Along => " along its line",
    };
    let (num, den) = row.time_in_lowest_terms();
    format!("track {} ends at {cause}{side}, time {num}/{den}", row.id)
}

/// The notes that stand within the view.
fn notes(notes: &[Note], view: &View) -> String {
    let mut text = String::new();
    for Note { x, y, words } in notes {
        let (x, y) = in_64ths(*x, *y);
        if view.holds(x, y) {
            let (across, down) = view.pixels(x, y);
            let words = words.replace('&', "&amp;").replace('<', "&lt;");
            let (x, y) = (across.pixels(), down.pixels());
            text += &format!("<text x=\"{x}\" y=\"{y}\" text-anchor=\"middle\">{words}</text>\n");
        }
    }
    text
}
