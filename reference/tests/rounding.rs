//! The rounding of end points (SHEETS 5.4): by hand, by the relation that it is to meet, and on sheets on which every
//! misreading gives another row.

mod nearest;

use nearest::is_nearest;
use reference::chosen::{document, halves};
use reference::fraction::Fraction;
use reference::frames;
use reference::roll::{roll, Row};
use reference::shapefile::{shapes, Layer, Shape};
use reference::sheet::{read, Records, Track};
use std::collections::BTreeMap;

fn in_64ths(numerator: i64, denominator: i64) -> i128 {
    Fraction::new(numerator, denominator).in_64ths()
}

#[test]
fn halves_by_hand() {
    let expected = [0, 0, 1, 2, 2, 2, 3, 4, 4, 4, 5, 6, 6, 6, 7, 8, 8];
    for (k, expected) in (0..).zip(expected) {
        assert_eq!(in_64ths(k, 128), expected, "{k}/128");
        assert_eq!(in_64ths(-k, -128), expected, "{k}/128");
        assert_eq!(in_64ths(-k, 128), -expected, "-{k}/128");
        assert_eq!(in_64ths(128 * 4094 + k, 128), 262_016 + expected, "4094 and {k}/128");
        assert_eq!(in_64ths(128 * 4095 - k, 128), 262_080 - expected, "4095 without {k}/128");
        assert_eq!(in_64ths(7 * k, 7 * 128), expected, "{k}/128 with a common factor");
    }
}

#[test]
fn others_by_hand() {
    assert_eq!([1, 2, 4, 5, 7, 8].map(|n| in_64ths(n, 3)), [21, 43, 85, 107, 149, 171]);
    assert_eq!([1, 2, 3, 4].map(|n| in_64ths(n, 5)), [13, 26, 38, 51]);
    assert_eq!([127, 128, 129].map(|d| in_64ths(1, d)), [1, 0, 0]);
    assert_eq!([127, 128, 129].map(|d| in_64ths(3, d)), [2, 2, 1]);
    assert_eq!([127, 128, 129].map(|d| in_64ths(5, d)), [3, 2, 2]);
    assert_eq!((0..=4095).map(|n| in_64ths(n, 1)).collect::<Vec<_>>(), (0..=262_080).step_by(64).collect::<Vec<_>>());
}

#[test]
fn just_beside_halves_by_hand() {
    for part in [2, 3, 128, 499_739, 1 << 40] {
        let beside = |halves: i64| [-1, 1].map(|off| in_64ths(halves * part + off, 128 * part));
        assert_eq!([1, 3, 5, 7].map(beside), [[0, 1], [1, 2], [2, 3], [3, 4]], "{part}");
        assert_eq!(beside(2 * 262_079 + 1), [262_079, 262_080], "{part}");
    }
}

/// Halves, thirds and many others, above 0 and below, in rising order of denominators.
fn fractions() -> impl Iterator<Item = Fraction> {
    let denominators = [1, 2, 3, 4, 5, 6, 7, 8, 126, 127, 128, 129, 254, 256, 257, 3969, 7938, 499_739, 515_970];
    let numerators = |d: i64| (-60..=60).flat_map(move |n| [n, n * d + n, n * d + d / 2, n * d + d / 2 + 1, n * 977]);
    denominators.into_iter().flat_map(move |d| numerators(d).map(move |n| Fraction::new(n, d)))
}

#[test]
fn exactly_one_whole_number_is_nearest() {
    for exact in fractions() {
        let rounded = exact.nearest();
        for other in rounded - 2..=rounded + 2 {
            assert_eq!(is_nearest(other, exact), other == rounded, "{other} for {exact:?}");
        }
    }
}

#[test]
fn rounding_keeps_the_order() {
    let mut all: Vec<Fraction> = fractions().collect();
    all.sort();
    assert!(all.len() > 10_000 && all.is_sorted_by_key(|exact| exact.nearest()));
    assert!(all.windows(2).all(|pair| pair[0] != pair[1] || pair[0].nearest() == pair[1].nearest()));
}

/// The border is at an even number of 64ths, so a mirrored sheet has mirrored end points.
#[test]
fn rounding_is_the_same_from_either_border() {
    let border = 262_080;
    for exact in fractions() {
        assert_eq!((Fraction::whole(border) - exact).nearest(), border - exact.nearest(), "{exact:?}");
    }
}

fn printed(sheet: &[u8]) -> Vec<String> {
    roll(&read(sheet).expect("accepted")).iter().map(Row::to_string).collect()
}

#[test]
fn the_sheets_of_document_02() {
    assert_eq!(printed(&document::sheet("J")), ["1 3 1 2/3 43 43 2"]);
    let [(_, three_halves), (_, one_half)] = halves::document();
    assert_eq!(printed(&three_halves), ["1 3 1 3/128 2 192 1"]);
    assert_eq!(printed(&one_half), ["1 3 1 1/128 0 64 1"]);
}

#[test]
fn the_example() {
    // 1 ends at (6471.5, 6432.5).
    let lines = ["2 3 1 1/13 6479 6464 2", "3 3 2 1/13 6434 6528 2", "1 1 2 13/128 6472 6432 1"];
    assert_eq!(printed(&halves::example()), lines);
}

fn find(records: &Records, id: u16) -> &Track {
    records.tracks.iter().find(|track| track.id == id).expect("a row's track")
}

/// A coordinate of a row: the start and the exact end in 64ths, and what the row says.
struct Part {
    start: i128,
    exact: Fraction,
    rounded: i128,
}

impl Part {
    /// x and y.
    fn of(records: &Records, row: &Row) -> [Part; 2] {
        let track = find(records, row.id);
        let (x, y) = track.at(row.time);
        [(track.x, x, row.x), (track.y, y, row.y)].map(|(start, exact, rounded)| {
            let exact = (exact * Fraction::whole(64)).reduced();
            Part { start: 64 * i128::from(start), exact, rounded: rounded.into() }
        })
    }

    fn is_half(&self) -> bool {
        self.exact.lowest().1 == 2
    }

    /// How far the tip has gone.
    fn moved(&self) -> Fraction {
        let way = self.exact - Fraction::whole(self.start);
        way.max(-way)
    }
}

fn parts(records: &Records) -> Vec<Part> {
    roll(records).iter().flat_map(|row| Part::of(records, row)).collect()
}

fn half_up(exact: Fraction) -> i128 {
    (exact + Fraction::HALF).floor()
}

fn half_down(exact: Fraction) -> i128 {
    -half_up(-exact)
}

fn half_to_odd(exact: Fraction) -> i128 {
    [half_down(exact), half_up(exact)].into_iter().max_by_key(|rounded| rounded % 2).expect("two")
}

fn half_away_from_start(part: &Part) -> i128 {
    if part.exact < Fraction::whole(part.start) {
        half_down(part.exact)
    } else {
        half_up(part.exact)
    }
}

fn by_128ths(exact: Fraction) -> i128 {
    Fraction::new((exact + exact).nearest(), 2).nearest()
}

fn by_short_floats(exact: Fraction) -> i128 {
    let (numerator, denominator) = exact.lowest();
    (numerator as f32 / denominator as f32).round_ties_even() as i128
}

/// By name.
type Misreading = (&'static str, fn(&Part) -> i128);

/// Halves away from zero are halves up, as no coordinate is negative.
const MISREADINGS: [Misreading; 8] = [
    ("down", |part| part.exact.floor()),
    ("up", |part| -(-part.exact).floor()),
    ("halves up", |part| half_up(part.exact)),
    ("halves down", |part| half_down(part.exact)),
    ("halves to the odd", |part| half_to_odd(part.exact)),
    ("halves away from the start", half_away_from_start),
    ("rounded to 128ths first", |part| by_128ths(part.exact)),
    ("32-bit floats", |part| by_short_floats(part.exact)),
];

#[test]
fn misreadings_are_found_out() {
    let sheets: Vec<Records> = halves::sheets().iter().map(|sheet| read(sheet).expect("accepted")).collect();
    let parts: Vec<Part> = sheets.iter().flat_map(parts).collect();
    for (name, misread) in MISREADINGS {
        let wrong: Vec<&Part> = parts.iter().filter(|part| misread(part) != part.rounded).collect();
        println!("{name}: {} of {}", wrong.len(), parts.len());
        assert!(!wrong.is_empty(), "{name}");
        assert!(wrong.iter().all(|part| !is_nearest(misread(part), part.exact)), "{name}");
    }
}

#[test]
fn what_is_asked_has_halves_of_every_kind_there_is() {
    // By kind of ending, coordinate, and whether the even neighbour is above.
    let mut counts: BTreeMap<(u8, &str, bool), usize> = BTreeMap::new();
    let mut both = 0;
    for records in frames::accepted(1) {
        for row in roll(&records) {
            let parts = Part::of(&records, &row);
            for (part, name) in parts.iter().zip(["x", "y"]).filter(|(part, _)| part.is_half()) {
                let up = Fraction::whole(part.rounded) > part.exact;
                *counts.entry((row.ending.kind(), name, up)).or_default() += 1;
            }
            both += usize::from(parts.iter().all(Part::is_half));
        }
    }
    println!("halves by kind, coordinate and up: {counts:?}; in both: {both}");
    // At meetings and at the edge there is none.
    let all = [1, 3].into_iter().flat_map(|kind| ["x", "y"].map(|name| [(kind, name, false), (kind, name, true)]));
    assert!(counts.keys().copied().eq(all.flatten()) && counts.values().all(|count| *count > 300), "{counts:?}");
    assert!(both > 300, "{both}");
}

#[test]
fn what_is_asked_has_ends_just_beside_halves() {
    // Below and above, as close as a large denominator allows.
    let mut counts = [0; 2];
    for part in frames::accepted(1).flat_map(|records| parts(&records)) {
        let (numerator, denominator) = part.exact.lowest();
        let off = 2 * numerator.rem_euclid(denominator) - denominator;
        if off.abs() == 1 && denominator > 400_000 {
            counts[usize::from(off > 0)] += 1;
        }
    }
    assert!(counts.iter().all(|count| *count > 50), "{counts:?}");
}

/// A start is at an even number of 64ths, so half a 64th from it the rounded end is the start (SHEETS 12.5).
#[test]
fn a_null_shape_is_a_tip_that_moves_at_most_half_a_64th_each_way() {
    let mut counts: BTreeMap<&str, usize> = BTreeMap::new();
    for records in frames::accepted(1) {
        let rows = roll(&records);
        for (row, shape) in rows.iter().zip(shapes(Layer::Traces, &records, &rows)) {
            let moved = Part::of(&records, row).map(|part| part.moved());
            let furthest = moved[0].max(moved[1]);
            assert_eq!(shape == Shape::Null, furthest <= Fraction::HALF, "{row} of {records:?}");
            let name = match (furthest == Fraction::ZERO, furthest.cmp(&Fraction::HALF)) {
                (true, _) => "not moved",
                (_, std::cmp::Ordering::Less) => "less than half a 64th",
                (_, std::cmp::Ordering::Equal) => "half a 64th",
                _ if furthest <= Fraction::ONE => "at most a 64th",
                _ => "more",
            };
            *counts.entry(name).or_default() += 1;
        }
    }
    println!("rows by how far the tip has moved: {counts:?}");
    assert!(counts.len() == 5 && counts.values().all(|count| *count > 100), "{counts:?}");
}
