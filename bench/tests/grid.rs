//! The grid run in Rust compared with the reference implementation: rows, and cells entered, at the six figures.

use reference::cells::{count, FIGURES};
use reference::made_up::{by_each, facing, halves, late, sides, Maker, GROUNDS};
use reference::rng::Rng;
use reference::roll::{roll, roll_bytes};
use reference::sheet::{commands, listing, read, Records};
use reference::{chosen, made_up};

fn check(records: &Records) {
    let rows = roll(records);
    let expected = roll_bytes(&rows);
    for figure in FIGURES {
        let mut out = vec![0; expected.len()];
        let cells = bench::grid::roll(records, figure, &mut out);
        assert!(out == expected, "rows at {figure}: {records:?}");
        assert_eq!(cells, count(records, &rows, figure) as u64, "cells at {figure}: {records:?}");
    }
    let mut out = vec![0; expected.len()];
    bench::selection::roll(records, &mut out);
    assert!(out == expected, "plain run: {records:?}");
}

/// So many accepted sheets by each of these makers.
fn check_each(rng: &mut Rng, makers: &[Maker], count: usize) {
    for sheet in by_each(rng, makers, count) {
        check(&read(&sheet).expect("accepted"));
    }
}

#[test]
fn chosen_and_made_up_sheets() {
    let sheets = [chosen::all(), made_up::all(1), made_up::all(5)].concat();
    sheets.iter().filter_map(|sheet| read(sheet).ok()).for_each(|records| check(&records));
}

#[test]
fn sheets_with_start_times() {
    let mut rng = Rng::new(7);
    check_each(&mut rng, &late::MAKERS, 1000);
    check_each(&mut rng, &[late::large], 6);
}

#[test]
fn sheets_with_facing_tips() {
    check_each(&mut Rng::new(9), &facing::MAKERS, 2000);
}

#[test]
fn sheets_with_halves() {
    check_each(&mut Rng::new(10), &halves::MAKERS, 500);
}

#[test]
fn sheets_with_causes_at_one_time() {
    check_each(&mut Rng::new(8), &sides::MAKERS, 2000);
}

#[test]
fn crowded_sheets_in_any_order() {
    let mut rng = Rng::new(6);
    for ground in GROUNDS {
        for draws in [5, 20, 80, 300] {
            for _ in 0..60 {
                let listed = ground.accepted(&mut rng, draws);
                let records = read(&listing(listed)).expect("accepted");
                check(&records);
                let mut shuffled: Vec<_> = commands(&records.tracks, &records.walls).collect();
                rng.shuffle(&mut shuffled);
                check(&read(&listing(shuffled)).expect("accepted"));
            }
        }
    }
}
