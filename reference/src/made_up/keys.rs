//! Made-up sessions and the keys pressed on them.

use crate::rng::Rng;
use crate::roll::Row;
use crate::session::{Key, NUMBERS};
use crate::sheet::MAX_RECORDS;

/// A key, and the room that is lent for rows.
#[derive(Clone, Copy, Debug)]
pub struct Pressed {
    pub key: Key,
    pub room: usize,
}

/// A session handed in over a roll of so many rows: any rows shown, more than there are among them, and a number still
/// running that is right, nearly right or any (SHEETS 7.5).
pub fn numbers(rng: &mut Rng, rows: usize) -> [u64; NUMBERS] {
    let among = rng.below(rows + 1) as u64;
    let rows = rows as u64;
    let shown = rng.pick(&[among, among, among, 0, rows, rows + 1, 257, u64::MAX]);
    let right = rows.saturating_sub(shown);
    let any = rng.draw();
    let running = rng.pick(&[right, right, right + 1, right.wrapping_sub(1), 0, rows, shown, any, u64::MAX]);
    [shown, running]
}

/// By how many rows.
pub fn advance(rng: &mut Rng) -> Key {
    Key::Advance(rng.pick(&[0, 1, 1, 1, 2, 2, 3, 5, 8, 256, 257, u64::MAX]))
}

fn key(rng: &mut Rng) -> Key {
    match rng.below(10) {
        0 => Key::Open,
        1 => Key::Reset,
        2 | 3 => Key::Running,
        _ => advance(rng),
    }
}

/// Room for any rows, or for a few, or for a byte less than these.
fn room(rng: &mut Rng) -> usize {
    let rows = if rng.one_in(2) { MAX_RECORDS } else { rng.below(4) };
    (rows * Row::LENGTH).saturating_sub(rng.below(2))
}

/// So many keys, one after another.
pub fn keys(rng: &mut Rng, count: usize) -> Vec<Pressed> {
    (0..count).map(|_| Pressed { key: key(rng), room: room(rng) }).collect()
}
