//! Reads a sheet from standard input and prints its roll, or its refusal, with the proved library:
//! what program `roll` prints. From the repository's root:
//!   tools/build fissures_c
//!   cargo run --release --offline -p roll < examples/A.sheet

use fissures::{GridRoll, Row, ENOUGH, LONGEST_ROLL};
use std::io::{stdin, Read, Result};

fn main() -> Result<()> {
    let mut sheet = Vec::new();
    stdin().take(ENOUGH as u64).read_to_end(&mut sheet)?;
    let mut roll = [0; LONGEST_ROLL];
    match fissures::grid(&sheet, 8, &mut roll) {
        Ok(GridRoll { rows, cells }) => {
            println!("tracks {rows} cells {cells}");
            Row::all(&roll).take(rows).for_each(|row| println!("{row}"));
        }
        Err(refusal) => println!("{refusal}"),
    }
    Ok(())
}
