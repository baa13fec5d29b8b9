//! Made-up records handed in: those of made-up sheets, sometimes with other counts.

use super::{accepted, doubtful, facing, halves, late, nearly_accepted, provoked, shapes, sides, Maker};
use crate::handed_in::HandedIn;
use crate::rng::Rng;
use crate::sheet::{whole_commands, Records};

/// Often the right count, otherwise one less, more, or more than there is room for.
fn count(rng: &mut Rng, listed: usize) -> u64 {
    let listed = listed as u64;
    match rng.below(12) {
        0 => listed.saturating_sub(1),
        1 => rng.below(listed as usize + 1) as u64,
        2 => listed + 1,
        3 => rng.pick(&[256, 257, 300, 65536, u64::MAX]),
        _ => listed,
    }
}

/// What each of these makes is whole commands.
const MAKERS: [Maker; 5] = [accepted, accepted, nearly_accepted, doubtful, provoked];
const LATE_MAKERS: [Maker; 5] = [late::accepted, late::opening, late::nearly_accepted, late::doubtful, late::provoked];

pub fn handed_in(rng: &mut Rng) -> HandedIn {
    made_by(rng, &MAKERS)
}

/// With start times.
pub fn handed_in_late(rng: &mut Rng) -> HandedIn {
    made_by(rng, &LATE_MAKERS)
}

fn made_by(rng: &mut Rng, makers: &[fn(&mut Rng) -> Vec<u8>]) -> HandedIn {
    let make = rng.pick(makers);
    let commands = whole_commands(&make(rng)).expect("a sheet of whole commands");
    let listed = Records::of(&commands);
    let ntracks = count(rng, listed.tracks.len());
    let nwalls = count(rng, listed.walls.len());
    HandedIn { ntracks, nwalls, listed }
}

pub fn all(seed: u64) -> Vec<HandedIn> {
    let mut rng = Rng::new(seed);
    let mut all: Vec<HandedIn> = (0..1200).map(|_| handed_in(&mut rng)).collect();
    all.extend((0..400).map(|_| handed_in_late(&mut rng)));
    all.extend((0..100).map(|_| made_by(&mut rng, &shapes::MAKERS)));
    all.extend((0..100).map(|_| made_by(&mut rng, &sides::MAKERS)));
    all.extend((0..200).map(|_| made_by(&mut rng, &facing::MAKERS)));
    all.extend((0..100).map(|_| made_by(&mut rng, &halves::MAKERS)));
    all
}
