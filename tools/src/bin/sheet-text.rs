//! Turns a listing into a sheet and back.

use reference::sheet::listing as bytes;
use sheet_tools::{listing, sheet};
use std::io::{self, Read, Write};
use std::process::ExitCode;

const USAGE: &str = "usage: sheet-text to-sheet < LISTING > SHEET
       sheet-text to-text < SHEET > LISTING";

fn main() -> ExitCode {
    match run() {
        Ok(()) => ExitCode::SUCCESS,
        Err(wrong) => {
            eprintln!("sheet-text: {wrong}");
            ExitCode::FAILURE
        }
    }
}

fn run() -> Result<(), String> {
    let arguments: Vec<String> = std::env::args().skip(1).collect();
    let turned = match arguments.iter().map(String::as_str).collect::<Vec<_>>()[..] {
        ["to-sheet"] => bytes(listing::parse(&input()?)?),
        ["to-text"] => listing::print(&sheet::from_bytes(&input()?)?).into_bytes(),
        _ => return Err(USAGE.into()),
    };
    io::stdout().write_all(&turned).map_err(|wrong| wrong.to_string())
}

fn input() -> Result<Vec<u8>, String> {
    let mut bytes = Vec::new();
    io::stdin().read_to_end(&mut bytes).map_err(|wrong| wrong.to_string())?;
    Ok(bytes)
}
