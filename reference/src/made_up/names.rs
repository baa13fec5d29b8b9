//! Made-up lookups: few ids, short names, lists that are often damaged.

use crate::names::{entry, Lookup};
use crate::rng::Rng;

fn id(rng: &mut Rng) -> u16 {
    rng.pick(&[0, 1, 256, 257, 65535])
}

fn some_entry(rng: &mut Rng) -> Vec<u8> {
    let length = rng.pick(&[0, 0, 1, 2, 3, 5, 12]);
    let name: Vec<u8> = (0..length).map(|_| rng.draw() as u8).collect();
    entry(id(rng), &name)
}

/// Up to six entries: as they are, cut anywhere, with a few bytes behind, or with a byte changed.
fn list(rng: &mut Rng) -> Vec<u8> {
    let entries = rng.below(7);
    let mut list: Vec<u8> = (0..entries).flat_map(|_| some_entry(rng)).collect();
    let place = rng.below(list.len() + 1);
    match rng.below(6) {
        0 => list.truncate(place),
        1 => list.push(rng.below(2) as u8),
        2 => list.extend([rng.below(2) as u8, rng.below(2) as u8]),
        3 if place < list.len() => list[place] = rng.below(20) as u8,
        _ => {}
    }
    list
}

pub fn lookup(rng: &mut Rng) -> Lookup {
    let kind = rng.pick(&[1, 1, 1, 2, 2, 3, 3, 3, 4]);
    Lookup { kind, partner: id(rng), tracks: list(rng), walls: list(rng) }
}

pub fn all(seed: u64) -> Vec<Lookup> {
    let mut rng = Rng::new(seed);
    (0..1500).map(|_| lookup(&mut rng)).collect()
}
