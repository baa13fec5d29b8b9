//! Tables in Markdown.

/// A line a row, the first cell its name.
pub fn print(head: &[String], rows: impl IntoIterator<Item = Vec<String>>) {
    let line = |cells: &[String]| println!("| {} |", cells.join(" | "));
    line(head);
    println!("|{}", "---|".repeat(head.len()));
    rows.into_iter().for_each(|cells| line(&cells));
    println!();
}

/// The head: the first cell, and those after it.
pub fn head(first: &str, rest: impl IntoIterator<Item = impl ToString>) -> Vec<String> {
    row(first, rest.into_iter().map(|cell| cell.to_string()))
}

pub fn row(name: &str, cells: impl IntoIterator<Item = String>) -> Vec<String> {
    [name.to_string()].into_iter().chain(cells).collect()
}

/// Microseconds with one decimal, two where they are few.
pub fn time(microseconds: f64) -> String {
    let places = if microseconds < 10.0 { 2 } else { 1 };
    format!("{microseconds:.places$}")
}

pub fn ratio(value: f64) -> String {
    format!("{value:.2}")
}
