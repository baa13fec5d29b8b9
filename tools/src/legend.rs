//! What the colours and marks of a picture mean.

use crate::sides;

/// The width of the legend in pixels.
pub const WIDTH: i128 = 200;

/// Colours of the kinds 1 to 4 that also differ for the colour-blind.
pub const COLOURS: [&str; 4] = ["#0072b2", "#d55e00", "#009e73", "#cc79a7"];

/// Beyond the edge.
pub const OUTSIDE: &str = "#ececec";
pub const TOUCHED: &str = "#fbeeb8";
/// The cell whose listing is shown, and where tips enter it.
pub const LISTED: &str = "#f5d76e";
pub const RING: &str = "#a00";
pub const GRID: &str = "#aaa";
/// The end points in the rows, and the lines at whole 64ths.
pub const ROUNDED: &str = "#a00";
pub const WHOLE: &str = "#ccc";

/// The head of an arrow, of the width of a wall's line, and the attribute that puts it at the end of a line.
pub const ARROWHEAD: &str =
    "<defs><marker id=\"b\" orient=\"auto\" overflow=\"visible\"><path d=\"M-3 -1.5L0 0L-3 1.5\" fill=\"none\" \
    stroke=\"#000\" stroke-width=\"0.4\"/></marker></defs>\n";
pub const AT_B: &str = "marker-end=\"url(#b)\"";

const KINDS: [&str; 4] =
    ["1 ends at an earlier trace", "2 meets a tip, both end", "3 ends at a wall", "4 ends at the edge"];

/// The distance of two lines in pixels.
const LINE: usize = 20;

/// The legend's lines.
pub struct Legend(Vec<String>);

impl Legend {
    /// For a grid of the figure whose cells are shaded, for late starts, sides, and a cell listing's lines, where there are any.
    pub fn new(shaded: Option<u64>, late: bool, sides: bool, listed: &[String]) -> Legend {
        let kinds = COLOURS.iter().zip(KINDS);
        let mut lines: Vec<String> = kinds.map(|(colour, words)| entry(&end(colour), words)).collect();
        lines.push(entry(&started(), "trace, id at its start"));
        if late {
            lines.push(entry(&hollow(), "late start, id and time"));
        }
        if sides {
            lines.push(entry(&letters(), "from left, right, along"));
        }
        lines.push(entry(&wall(), "wall from a to b, id after w"));
        lines.push(entry(&dashed(), "edge of the sheet"));
        lines.push(entry(&area(OUTSIDE, OUTSIDE), "outside the sheet"));
        if let Some(figure) = shaded {
            lines.push(entry(&area(TOUCHED, GRID), &format!("cell touched, g = {figure}")));
        }
        for (index, words) in listed.iter().enumerate() {
            let mark = if index == 0 { area(LISTED, GRID) } else { ring() };
            lines.push(entry(&mark, words));
        }
        Legend(lines)
    }

    /// With the marks of a close view.
    pub fn with_64ths(mut self) -> Legend {
        self.0.push(entry(&square(), "end point in the row, in 64ths"));
        self.0.push(entry(&line(WHOLE, 1), "whole 64ths"));
        self
    }

    /// In pixels.
    pub fn height(&self) -> usize {
        LINE * (self.0.len() + 1)
    }

    /// The legend, its left side at x pixels.
    pub fn draw(&self, x: &str) -> String {
        let place = |(index, entry): (usize, &String)| {
            let y = LINE * (1 + index);
            format!("<g transform=\"translate(0 {y})\">{entry}</g>\n")
        };
        let lines: String = self.0.iter().enumerate().map(place).collect();
        format!("<g transform=\"translate({x} 0)\">\n{lines}</g>\n")
    }
}

/// One line of the legend: a mark and its meaning.
fn entry(mark: &str, words: &str) -> String {
    format!("{mark}<text x=\"34\" y=\"4\">{words}</text>")
}

fn end(colour: &str) -> String {
    format!("<circle cx=\"17\" cy=\"0\" r=\"4\" fill=\"{colour}\"/>")
}

fn started() -> String {
    line("#555", 1) + "<circle cx=\"8\" cy=\"0\" r=\"2\" fill=\"#555\"/>"
}

fn hollow() -> String {
    line("#555", 1) + "<circle cx=\"10\" cy=\"0\" r=\"5\" fill=\"#fff\" stroke=\"#555\" stroke-width=\"1.2\"/>"
}

fn letters() -> String {
    format!("<text x=\"15\" y=\"4\" fill=\"{}\" font-size=\"10\" text-anchor=\"middle\">L R A</text>", sides::COLOUR)
}

fn wall() -> String {
    format!("<g {AT_B}>{}</g>", line("#000", 3))
}

fn area(fill: &str, border: &str) -> String {
    format!("<rect x=\"8\" y=\"-5\" width=\"18\" height=\"10\" fill=\"{fill}\" stroke=\"{border}\"/>")
}

fn ring() -> String {
    format!("<circle cx=\"17\" cy=\"0\" r=\"6\" fill=\"none\" stroke=\"{RING}\" stroke-width=\"1.5\"/>")
}

fn square() -> String {
    format!("<path d=\"M11 -6h12v12h-12z\" fill=\"none\" stroke=\"{ROUNDED}\" stroke-width=\"1.5\"/>")
}

fn line(colour: &str, width: u8) -> String {
    format!("<path d=\"M8 0H26\" stroke=\"{colour}\" stroke-width=\"{width}\"/>")
}

fn dashed() -> String {
    "<path d=\"M8 0H26\" stroke=\"#999\" stroke-dasharray=\"4 3\"/>".to_string()
}
