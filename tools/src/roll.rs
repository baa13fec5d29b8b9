//! What the program `roll` prints, read back.

use reference::fraction::Fraction;
use reference::roll::{Ending, Row, Side};
use std::str::FromStr;

/// The cells entered under g = 8, and the rows.
pub struct Roll {
    pub cells: u32,
    pub rows: Vec<Row>,
}

/// The roll in the program's output; a refusal there is an error here.
pub fn parse(text: &str) -> Result<Roll, String> {
    let mut lines = text.lines();
    let first: Vec<&str> = lines.next().unwrap_or("").split(' ').collect();
    let (tracks, cells) = match first[..] {
        ["refused", refusal, place] => {
            return Err(format!("roll refused the sheet: {refusal}, place {place}"));
        }
        ["tracks", tracks, "cells", cells] => (field::<usize>(tracks), field(cells)),
        _ => return Err("line 1: not the output of roll".into()),
    };
    let (tracks, cells) = tracks.zip(cells).ok_or("line 1: not the output of roll")?;
    let mut rows = Vec::new();
    for (index, line) in lines.enumerate() {
        rows.push(row(line).ok_or_else(|| format!("line {}: not a row of a roll", index + 2))?);
    }
    if rows.len() != tracks {
        return Err(format!("{} rows for {tracks} tracks", rows.len()));
    }
    Ok(Roll { cells, rows })
}

fn row(line: &str) -> Option<Row> {
    let words: Vec<&str> = line.split(' ').collect();
    let [id, kind, partner, time, x, y, side] = words[..] else { return None };
    let (num, den) = time.split_once('/')?;
    let (num, den): (u64, u64) = (field(num)?, field(den)?);
    let ending = ending(field(kind)?, field(partner)?)?;
    let time = (den != 0).then(|| Fraction::new(num, den))?;
    let side = self::side(ending, field(side)?)?;
    Some(Row { id: field(id)?, ending, time, x: field(x)?, y: field(y)?, side })
}

/// The ending of a kind and a partner, which the edge has not.
fn ending(kind: u8, partner: u16) -> Option<Ending> {
    match (kind, partner) {
        (1, id) => Some(Ending::Track(id)),
        (2, id) => Some(Ending::Meeting(id)),
        (3, id) => Some(Ending::Wall(id)),
        (4, 0) => Some(Ending::Edge),
        _ => None,
    }
}

/// The side with that number; the edge has none, and nothing else has none (SHEETS 4.14).
fn side(ending: Ending, number: u8) -> Option<Side> {
    let side = Side::ALL.into_iter().find(|side| side.number() == number)?;
    ((ending == Ending::Edge) == (side == Side::NoSide)).then_some(side)
}

fn field<T: FromStr>(word: &str) -> Option<T> {
    word.parse().ok()
}
