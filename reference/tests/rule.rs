//! The rolls held against the rule of ending itself (SHEETS 4.11), with the other rows'
//! times put in for the other tips' ends.

mod causes;
mod nearest;

use causes::{end, ends, End, Ends};
use nearest::is_nearest;
use reference::chosen;
use reference::fraction::Fraction;
use reference::frames;
use reference::made_up::{self, by_each, facing, halves, late, sides, Maker};
use reference::rng::Rng;
use reference::roll::{roll, roll_bytes, Ending, Row, Side};
use reference::sheet::{commands, listing, read, Records};
use std::collections::BTreeMap;

/// Euclid's way; that of 0 and a number is the number.
fn greatest_common_factor(a: u64, b: u64) -> u64 {
    match b {
        0 => a,
        _ => greatest_common_factor(b, a % b),
    }
}

fn check_row(records: &Records, row: &Row, ends: &Ends) {
    let tip = records.tracks.iter().find(|track| track.id == row.id).expect("a track's row");
    let End { time, point: (x, y), causes } = end(records, tip, ends);
    assert_eq!((row.time, (row.ending, row.side)), (time, causes[0]), "id {} of {records:?}", row.id);
    for (rounded, exact) in [(row.x, x), (row.y, y)] {
        assert!(is_nearest(rounded.into(), exact * Fraction::whole(64)), "{row} of {records:?}");
    }
    let (numerator, denominator) = row.time_in_lowest_terms();
    assert_eq!(Fraction::new(numerator, denominator), time);
    assert!(numerator < 1 << 31 && 0 < denominator && denominator < 1 << 19);
    assert_eq!(greatest_common_factor(numerator, denominator), 1);
}

/// Every row is the rule's, there is one for each track, and they are in the roll's order.
fn check_roll(records: &Records) -> Vec<Row> {
    let rows = roll(records);
    let ends = ends(&rows);
    assert_eq!(rows.len(), records.tracks.len());
    assert_eq!(ends.len(), rows.len());
    assert!(rows.is_sorted_by_key(|row| (row.time, row.id)));
    for row in &rows {
        check_row(records, row, &ends);
    }
    rows
}

/// So many accepted sheets by each of these makers.
fn check_roll_each(rng: &mut Rng, makers: &[Maker], count: usize) {
    for sheet in by_each(rng, makers, count) {
        check_roll(&read(&sheet).expect("accepted"));
    }
}

#[test]
fn rolls_of_chosen_sheets_are_the_rule_s() {
    let sheets = chosen::all();
    let rolls = sheets.iter().filter_map(|sheet| read(sheet).ok()).map(|sheet| check_roll(&sheet));
    assert!(rolls.count() > 3000);
}

#[test]
fn chosen_endings_are_accepted() {
    for sheet in [chosen::endings::sheets(), chosen::late::endings()].concat() {
        assert_eq!(read(&sheet).err(), None, "{sheet:?}");
    }
}

#[test]
fn rolls_of_made_up_sheets_are_the_rule_s() {
    let mut rng = Rng::new(11);
    let mut kinds = [0; 5];
    for ground in made_up::GROUNDS {
        for _ in 0..700 {
            let draws = 2 + rng.below(40);
            let commands = ground.accepted(&mut rng, draws);
            let records = read(&listing(commands)).expect("accepted");
            for row in check_roll(&records) {
                kinds[usize::from(row.ending.kind())] += 1;
            }
        }
    }
    assert!(kinds[1..].iter().all(|count| *count > 500), "{kinds:?}");
}

#[test]
fn rolls_of_sheets_with_start_times_are_the_rule_s() {
    let mut rng = Rng::new(14);
    // Rows of each kind, of late tips and of those that end as they open.
    let (mut all, mut at_once) = ([0; 5], [0; 5]);
    for make in late::MAKERS {
        for _ in 0..1500 {
            let records = read(&make(&mut rng)).expect("accepted");
            for row in check_roll(&records) {
                let track = records.tracks.iter().find(|track| track.id == row.id).expect("a row's track");
                let kind = usize::from(row.ending.kind());
                all[kind] += usize::from(track.start_time > 0);
                at_once[kind] += usize::from(track.start_time > 0 && row.time == Fraction::whole(track.start_time));
            }
        }
    }
    assert!(all[1..].iter().all(|count| *count > 500), "{all:?}");
    // No start is on a wall, so no tip ends on one as it opens.
    assert!(at_once[1] > 500 && at_once[2] > 500 && at_once[3] == 0 && at_once[4] > 500, "{at_once:?}");
}

#[test]
fn rolls_of_sheets_with_causes_at_one_time_are_the_rule_s() {
    check_roll_each(&mut Rng::new(15), &sides::MAKERS, 3000);
}

#[test]
fn rolls_of_sheets_with_facing_tips_are_the_rule_s() {
    check_roll_each(&mut Rng::new(16), &facing::MAKERS, 1500);
}

#[test]
fn rolls_of_sheets_with_halves_are_the_rule_s() {
    check_roll_each(&mut Rng::new(17), &halves::MAKERS, 1000);
}

#[test]
fn what_is_asked_has_every_side_that_there_is() {
    let mut counts: BTreeMap<(u8, u8), usize> = BTreeMap::new();
    for row in frames::accepted(1).flat_map(|records| roll(&records)) {
        *counts.entry((row.ending.kind(), row.side.number())).or_default() += 1;
    }
    println!("rows by kind and side: {counts:?}");
    let all = [(1, 1), (1, 2), (1, 3), (2, 1), (2, 2), (2, 3), (3, 1), (3, 2), (3, 3), (4, 0)];
    assert!(counts.keys().copied().eq(all) && counts.values().all(|count| *count > 300), "{counts:?}");
}

/// The class of SHEETS 4.9.
fn class(ending: Ending) -> &'static str {
    match ending {
        Ending::Track(_) | Ending::Meeting(_) => "track",
        Ending::Wall(_) => "wall",
        Ending::Edge => "edge",
    }
}

#[test]
fn what_is_asked_has_causes_with_different_sides_at_one_time() {
    // By class and side of the cause that is named, and of one that is not.
    let mut counts: BTreeMap<[(&str, Side); 2], usize> = BTreeMap::new();
    let mut rows_with_another = 0;
    for records in frames::accepted(1) {
        let ends = ends(&roll(&records));
        for tip in &records.tracks {
            let causes = end(&records, tip, &ends).causes.into_iter().map(|(ending, side)| (class(ending), side));
            let causes: Vec<_> = causes.collect();
            let others = causes[1..].iter().filter(|(_, side)| *side != causes[0].1);
            rows_with_another += usize::from(others.clone().count() > 0);
            others.for_each(|other| *counts.entry([causes[0], *other]).or_default() += 1);
        }
    }
    println!("rows with another side to choose: {rows_with_another}; causes: {counts:?}");
    let (left, right, along) = (Side::Left, Side::Right, Side::Along);
    let different = [(left, right), (left, along), (right, left), (right, along), (along, left), (along, right)];
    let pairs = |named, other| different.map(|(one, another)| [(named, one), (other, another)]);
    // A tip comes along a track to a wall where that one faces it and the wall had ended it.
    let classes = [("track", "track"), ("wall", "wall"), ("track", "wall")];
    let expected = classes.into_iter().flat_map(|(named, other)| pairs(named, other));
    for pair in expected {
        assert!(counts.get(&pair).is_some_and(|count| *count > 20), "{pair:?} in {counts:?}");
    }
}

#[test]
fn rolls_of_large_sheets_are_the_rule_s() {
    let mut rng = Rng::new(12);
    for make in [made_up::large, late::large] {
        for _ in 0..6 {
            let records = read(&make(&mut rng)).expect("accepted");
            check_roll(&records);
        }
    }
}

#[test]
fn the_order_of_commands_does_not_change_the_roll() {
    let mut rng = Rng::new(13);
    for sheet in made_up::all(5) {
        let Ok(records) = read(&sheet) else { continue };
        let mut shuffled: Vec<_> = commands(&records.tracks, &records.walls).collect();
        rng.shuffle(&mut shuffled);
        let again = read(&listing(shuffled)).expect("accepted in another order");
        assert_eq!(roll_bytes(&roll(&again)), roll_bytes(&roll(&records)));
    }
}
