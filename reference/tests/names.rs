//! The name lookup, by examples and by lists of which the entries are known.

use reference::chosen;
use reference::made_up;
use reference::names::{entry, name_in, Lookup};
use reference::rng::Rng;

fn looked_up(kind: u8, partner: u16) -> Vec<u8> {
    let tracks = [entry(1, b"east"), entry(2, b""), entry(65535, b"late")].concat();
    let walls = [entry(1, b"dam"), entry(0, b"dyke")].concat();
    Lookup { kind, partner, tracks, walls }.name().to_vec()
}

#[test]
fn the_kind_chooses_the_list() {
    for kind in [1, 2] {
        assert_eq!(looked_up(kind, 1), b"east");
        assert_eq!(looked_up(kind, 65535), b"late");
        assert_eq!(looked_up(kind, 2), b"");
        assert_eq!(looked_up(kind, 0), b"");
    }
    assert_eq!(looked_up(3, 1), b"dam");
    assert_eq!(looked_up(3, 0), b"dyke");
    assert_eq!(looked_up(3, 65535), b"");
    for kind in [0, 4, 5, 255] {
        assert_eq!(looked_up(kind, 1), b"");
        assert_eq!(looked_up(kind, 0), b"");
    }
}

#[test]
fn the_first_whole_entry_counts() {
    assert_eq!(name_in(&[7, 0, 1, 65, 7, 0, 1, 66], 7), Some(&[65][..]));
    assert_eq!(name_in(&[7, 0, 0, 7, 0, 1, 66], 7), Some(&[][..]));
    assert_eq!(name_in(&[7, 0, 1, 65, 9], 7), Some(&[65][..]));
}

#[test]
fn nothing_counts_from_a_cut_entry_on() {
    assert_eq!(name_in(&[], 7), None);
    assert_eq!(name_in(&[7], 7), None);
    assert_eq!(name_in(&[7, 0], 7), None);
    assert_eq!(name_in(&[7, 0, 1], 7), None);
    assert_eq!(name_in(&[9, 0, 5, 7, 0, 1, 65], 7), None);
    assert_eq!(name_in(&[9, 0, 4, 7, 0, 1, 65], 7), None);
    assert_eq!(name_in(&[9, 0, 3, 7, 0, 1, 7, 0, 1, 65], 7), Some(&[65][..]));
}

/// A list cut at any length has the entries that end within it, and those alone.
#[test]
fn a_cut_list_has_its_whole_entries() {
    let mut rng = Rng::new(6);
    for _ in 0..200 {
        let entries: Vec<(u16, Vec<u8>)> =
            (0..rng.below(5)).map(|_| (rng.below(3) as u16, vec![rng.draw() as u8; rng.below(4)])).collect();
        let list = entries.iter().map(|(id, name)| entry(*id, name)).collect::<Vec<_>>().concat();
        for length in 0..=list.len() {
            for id in 0..4 {
                let mut end = 0;
                let mut whole = entries.iter().take_while(|(_, name)| {
                    end += 3 + name.len();
                    end <= length
                });
                let expected = whole.find(|(other, _)| *other == id);
                let expected = expected.map(|(_, name)| name.as_slice());
                assert_eq!(name_in(&list[..length], id), expected, "{list:?} to {length}");
            }
        }
    }
}

/// Whether the walk over a list ends in an entry that is cut short.
fn is_cut(list: &[u8]) -> bool {
    match list {
        [] => false,
        [_, _, length, rest @ ..] => rest.get(usize::from(*length)..).is_none_or(is_cut),
        _ => true,
    }
}

fn times(list: &[u8], id: u16) -> usize {
    match list {
        [low, high, length, rest @ ..] => {
            let here = usize::from(u16::from_le_bytes([*low, *high]) == id);
            rest.get(usize::from(*length)..).map_or(0, |rest| here + times(rest, id))
        }
        _ => 0,
    }
}

/// Kind 4 too is asked for ids that are listed.
#[test]
fn every_case_is_looked_up_often() {
    let (mut cut, mut found_before_cut, mut twice, mut nameless) = (0, 0, 0, 0);
    let mut found = [0; 5];
    for lookup in [chosen::names::all(), made_up::names::all(1)].concat() {
        let list = if lookup.kind == 3 { &lookup.walls } else { &lookup.tracks };
        let name = name_in(list, lookup.partner);
        cut += usize::from(name.is_none() && is_cut(list));
        found_before_cut += usize::from(name.is_some() && is_cut(list));
        twice += usize::from(times(list, lookup.partner) > 1);
        nameless += usize::from(name == Some(&[]));
        found[usize::from(lookup.kind)] += usize::from(name.is_some());
    }
    let counts = [cut, found_before_cut, twice, nameless];
    assert!(counts.iter().all(|count| *count > 100), "{counts:?}");
    assert!(found[1..].iter().all(|count| *count > 100), "{found:?}");
}
