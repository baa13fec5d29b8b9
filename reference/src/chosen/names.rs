//! Lookups: entries cut short, the id twice, empty names, entries inside a name.

use crate::names::{entry, Lookup};

const OWN: &[u8] = b"own";
const LONGEST: [u8; 255] = [7; 255];

fn whole_lists(id: u16, other: u16) -> Vec<Vec<u8>> {
    let own = || entry(id, OWN);
    let again = entry(id, b"again");
    let nameless = || entry(id, b"");
    let others = entry(other, b"other");
    let others_nameless = entry(other, b"");
    vec![
        own(),
        others.clone(),
        [others.clone(), own()].concat(),
        [own(), others.clone()].concat(),
        [own(), again.clone()].concat(),
        [others.clone(), own(), again].concat(),
        nameless(),
        [nameless(), own()].concat(),
        [own(), nameless()].concat(),
        [others_nameless.clone(), own()].concat(),
        [others_nameless.clone(), others_nameless].concat(),
        [entry(id ^ 0x0001, b"low"), entry(id ^ 0x0100, b"high"), own()].concat(),
        entry(id, &LONGEST),
        [entry(other, &LONGEST), own()].concat(),
        // The id's own entry stands inside another's name.
        entry(other, &own()),
    ]
}

/// Every length at which a list can be cut, alone and with whole entries around it.
fn cut_lists(id: u16, other: u16) -> Vec<Vec<u8>> {
    let own = entry(id, OWN);
    let others = entry(other, b"other");
    let mut lists = Vec::new();
    for length in 0..own.len() {
        let cut = &own[..length];
        lists.push(cut.to_vec());
        lists.push([&others, cut].concat());
        lists.push([&own, cut].concat());
        lists.push([cut, &own].concat());
    }
    for length in 0..others.len() {
        lists.push([&own, &others[..length]].concat());
    }
    lists
}

/// The length goes one beyond the end, or far beyond, and the rest would be a whole entry.
fn beyond_the_end(id: u16, other: u16) -> Vec<Vec<u8>> {
    let own = entry(id, OWN);
    let length = own.len() as u8;
    let claims = |claimed| {
        let mut list = entry(other, &own);
        list[2] = claimed;
        list
    };
    let nameless_before = [entry(other, b""), claims(length + 1)].concat();
    vec![claims(length - 1), claims(length), claims(length + 1), claims(255), nameless_before]
}

fn lists(id: u16) -> Vec<Vec<u8>> {
    let other = id.wrapping_add(1);
    let none = vec![vec![]];
    [none, whole_lists(id, other), cut_lists(id, other), beyond_the_end(id, other)].concat()
}

/// Each list as the track list and as the wall list, with the id in the other list too.
pub fn all() -> Vec<Lookup> {
    let mut lookups = Vec::new();
    for partner in [0, 0x0102, 65535] {
        for list in lists(partner) {
            for kind in 1..=4 {
                let (tracks, walls) = (entry(partner, b"track"), entry(partner, b"wall"));
                lookups.push(Lookup { kind, partner, tracks: list.clone(), walls });
                lookups.push(Lookup { kind, partner, tracks, walls: list.clone() });
            }
        }
    }
    lookups
}
