//! Rolls held against each other's traces, point by point: where two traces have a point in common, the tip that came
//! last has ended, and what a row names is there. This is the rule (SHEETS 4.5 to 4.10) from the side of the finished
//! roll, by another way than tests/rule.rs; and rolls that misread it where tips face are found out.

use reference::chosen;
use reference::fraction::Fraction;
use reference::frames;
use reference::made_up::{by_each, facing};
use reference::plane::Vector;
use reference::rng::Rng;
use reference::roll::{roll, Ending, Row, Side};
use reference::sheet::{read, Records, Track, Wall};
use std::collections::BTreeMap;

/// A straight way from one point on, gone in so many steps: a trace, whose steps are its age, or a wall in one step.
#[derive(Clone, Copy)]
struct Way {
    from: Vector,
    step: Vector,
    steps: Fraction,
}

impl Way {
    fn trace(track: &Track, end: Fraction) -> Way {
        Way { from: track.start(), step: track.speed(), steps: end - Fraction::whole(track.start_time) }
    }

    fn wall(wall: &Wall) -> Way {
        Way { from: wall.a(), step: wall.b() - wall.a(), steps: Fraction::ONE }
    }

    fn has(&self, steps: Fraction) -> bool {
        Fraction::ZERO <= steps && steps <= self.steps
    }
}

/// What two ways have in common, by the steps of the first and of the second.
enum Common {
    Nothing,
    Point(Fraction, Fraction),
    /// More than a point; only where on the first it begins.
    Stretch(Fraction),
}

fn common(a: Way, b: Way) -> Common {
    let (turn, between) = (a.step.cross(b.step), b.from - a.from);
    if turn == 0 {
        return if a.step.cross(between) == 0 { on_one_line(a, b) } else { Common::Nothing };
    }
    let (own, other) = (Fraction::new(between.cross(b.step), turn), Fraction::new(between.cross(a.step), turn));
    if a.has(own) && b.has(other) {
        Common::Point(own, other)
    } else {
        Common::Nothing
    }
}

/// Both ways as intervals of the steps of the first.
fn on_one_line(a: Way, b: Way) -> Common {
    let square = a.step.dot(a.step);
    let start = Fraction::new(a.step.dot(b.from - a.from), square);
    let ratio = Fraction::new(a.step.dot(b.step), square);
    let end = start + ratio * b.steps;
    let (low, high) = (start.min(end).max(Fraction::ZERO), start.max(end).min(a.steps));
    if low > high {
        Common::Nothing
    } else if low < high {
        Common::Stretch(low)
    } else {
        Common::Point(low, (low - start).over(ratio))
    }
}

fn find(records: &Records, id: u16) -> &Track {
    records.tracks.iter().find(|track| track.id == id).expect("a row's track")
}

/// The tracks that were at the end of a tip by then, and since when; an error where the tip has gone on over a trace.
fn tracks_at_end(records: &Records, rows: &[Row], row: &Row) -> Result<BTreeMap<u16, Fraction>, String> {
    let tip = find(records, row.id);
    let (opens, way) = (Fraction::whole(tip.start_time), Way::trace(tip, row.time));
    let mut there = BTreeMap::new();
    for other in rows.iter().filter(|other| other.id != row.id) {
        let track = find(records, other.id);
        match common(way, Way::trace(track, other.time)) {
            Common::Nothing => {}
            Common::Stretch(_) => return Err(format!("{} and {} share a stretch", row.id, other.id)),
            Common::Point(own, steps) => {
                let (time, reached) = (opens + own, Fraction::whole(track.start_time) + steps);
                if reached <= time && time < row.time {
                    return Err(format!("{} goes on over {}", row.id, other.id));
                }
                if reached <= time {
                    there.insert(other.id, reached);
                }
            }
        }
    }
    Ok(there)
}

/// The smallest id of a wall at the end of a tip; an error where the tip has gone on over a wall.
fn wall_at_end(records: &Records, row: &Row) -> Result<Option<u16>, String> {
    let tip = find(records, row.id);
    let way = Way::trace(tip, row.time);
    let mut there = None;
    for wall in &records.walls {
        let first = match common(way, Way::wall(wall)) {
            Common::Nothing => continue,
            Common::Point(own, _) | Common::Stretch(own) => own,
        };
        if first < way.steps {
            return Err(format!("{} goes on over wall {}", row.id, wall.id));
        }
        there = Some(there.map_or(wall.id, |least: u16| least.min(wall.id)));
    }
    Ok(there)
}

/// Whether the tip is inside for the last time as it ends; an error where it is outside.
fn at_edge(records: &Records, row: &Row) -> Result<bool, String> {
    let tip = find(records, row.id);
    let (x, y) = tip.at(row.time);
    let (least, most) = (Fraction::ZERO, Fraction::whole(4095));
    if x.min(y) < least || x.max(y) > most {
        return Err(format!("{} ends outside", row.id));
    }
    let leaves = |part: Fraction, speed: i8| speed < 0 && part == least || speed > 0 && part == most;
    Ok(leaves(x, tip.vx) || leaves(y, tip.vy))
}

/// The side that goes with what the row names (SHEETS 4.14).
fn side_of(records: &Records, row: &Row) -> Side {
    let v = find(records, row.id).speed();
    let along = match row.ending {
        Ending::Track(id) | Ending::Meeting(id) => find(records, id).speed(),
        Ending::Wall(id) => {
            let wall = records.walls.iter().find(|wall| wall.id == id).expect("a row's wall");
            wall.b() - wall.a()
        }
        Ending::Edge => return Side::NoSide,
    };
    match (along.x * v.y).cmp(&(along.y * v.x)) {
        std::cmp::Ordering::Less => Side::Left,
        std::cmp::Ordering::Equal => Side::Along,
        std::cmp::Ordering::Greater => Side::Right,
    }
}

/// What is wrong with a row while the others are as they are.
fn check_row(records: &Records, rows: &[Row], row: &Row) -> Result<(), String> {
    if row.time < Fraction::whole(find(records, row.id).start_time) {
        return Err(format!("{} ends before it opens", row.id));
    }
    let (tracks, wall) = (tracks_at_end(records, rows, row)?, wall_at_end(records, row)?);
    let edge = at_edge(records, row)?;
    let expected = match (tracks.first_key_value(), wall) {
        (Some((id, reached)), _) if *reached < row.time => Ending::Track(*id),
        (Some((id, _)), _) => Ending::Meeting(*id),
        (None, Some(id)) => Ending::Wall(id),
        (None, None) if edge => Ending::Edge,
        (None, None) => return Err(format!("nothing ends {}", row.id)),
    };
    if expected != row.ending || side_of(records, row) != row.side {
        return Err(format!("{} should be ended by {expected:?}", row.id));
    }
    Ok(())
}

fn check(records: &Records, rows: &[Row]) -> Result<(), String> {
    rows.iter().try_for_each(|row| check_row(records, rows, row))
}

/// Two tips on one line that run toward each other.
fn face(a: &Track, b: &Track) -> bool {
    let way = b.start() - a.start();
    let on_line = |speed: Vector| way.x * speed.y == way.y * speed.x;
    on_line(a.speed()) && on_line(b.speed()) && way.dot(a.speed()) > 0 && way.dot(b.speed()) < 0
}

fn made_up(seed: u64, count: usize) -> impl Iterator<Item = Records> {
    let sheets = by_each(&mut Rng::new(seed), &facing::MAKERS, count);
    sheets.into_iter().map(|sheet| read(&sheet).expect("accepted"))
}

#[test]
fn rolls_agree_with_their_traces() {
    for records in made_up(21, 1500).chain(frames::accepted(1)) {
        assert_eq!(check(&records, &roll(&records)), Ok(()), "{records:?}");
    }
}

/// A row of the same tip that ends at another time, by another cause.
fn moved(records: &Records, row: &Row, time: Fraction, ending: Ending) -> Row {
    let (x, y) = find(records, row.id).at(time);
    let part = |part: Fraction| part.in_64ths().max(0) as u32;
    let moved = Row { time, ending, x: part(x), y: part(y), ..*row };
    Row { side: side_of(records, &moved), ..moved }
}

/// When the tip would come to the edge, and when it would come upon one that faces it.
fn later_and_earlier(tip: &Track, other: &Track) -> [Fraction; 2] {
    let far = |start: u16, speed: i8| {
        let to = if speed > 0 { 4095 } else { 0 };
        (speed != 0).then(|| Fraction::new(to - i64::from(start), speed))
    };
    let opens = Fraction::whole(tip.start_time);
    let edge = far(tip.x, tip.vx).into_iter().chain(far(tip.y, tip.vy)).min().expect("a tip that moves");
    // Where both are in x, or in y, at one time, if they go on as they began.
    let parts = [(tip.x, tip.vx, other.x, other.vx), (tip.y, tip.vy, other.y, other.vy)];
    let (p, v, q, w) = parts.into_iter().find(|(_, v, _, _)| *v != 0).expect("a tip that moves");
    let at_zero = |start: u16, speed: i8, time: u16| i64::from(start) - i64::from(speed) * i64::from(time);
    let apart = at_zero(q, w, other.start_time) - at_zero(p, v, tip.start_time);
    [opens + edge, Fraction::new(apart, i64::from(v) - i64::from(w))]
}

/// Rows that a misreading of the rule might give for this one, which ends on a tip that faces it: the tip goes on; it ends
/// where both would have met; it is a meeting, or none; a wall is named; or another track.
fn misread(records: &Records, row: &Row) -> Vec<Row> {
    let (tip, partner) = (find(records, row.id), row.ending.partner());
    let [edge, meeting] = later_and_earlier(tip, find(records, partner));
    let other_kind = match row.ending {
        Ending::Track(_) => Ending::Meeting(partner),
        _ => Ending::Track(partner),
    };
    let mut endings = vec![(edge, Ending::Edge), (row.time, other_kind), (row.time, Ending::Edge)];
    endings.extend((meeting != row.time).then_some((meeting, Ending::Meeting(partner))));
    endings.extend(records.walls.iter().map(|wall| (row.time, Ending::Wall(wall.id))));
    let others = records.tracks.iter().filter(|other| ![row.id, partner].contains(&other.id));
    endings
        .extend(others.flat_map(|other| [Ending::Track(other.id), Ending::Meeting(other.id)].map(|it| (row.time, it))));
    let rows = endings.into_iter().map(|(time, ending)| moved(records, row, time, ending));
    rows.filter(|wrong| wrong != row).collect()
}

#[test]
fn misread_rolls_are_found_out() {
    let mut found = 0;
    for records in made_up(22, 200) {
        let rows = roll(&records);
        for (at, row) in rows.iter().enumerate() {
            let on_track = matches!(row.ending, Ending::Track(_) | Ending::Meeting(_));
            if !on_track || !face(find(&records, row.id), find(&records, row.ending.partner())) {
                continue;
            }
            for wrong in misread(&records, row) {
                let mut others = rows.clone();
                others[at] = wrong;
                assert!(check(&records, &others).is_err(), "{wrong} for {row} of {records:?}");
                found += 1;
            }
        }
    }
    assert!(found > 5000, "{found}");
}

/// How a row on a tip that faces it came about.
fn how(records: &Records, rows: &[Row], row: &Row) -> &'static str {
    let (tip, partner) = (find(records, row.id), find(records, row.ending.partner()));
    let other = rows.iter().find(|other| other.id == partner.id).expect("the partner's row");
    let opens = |track: &Track| row.time == Fraction::whole(track.start_time);
    match row.ending {
        Ending::Meeting(_) if opens(tip) || opens(partner) => "met as one opened",
        Ending::Meeting(_) => "met",
        _ if opens(tip) && tip.at(row.time) != partner.at(other.time) => "opened on the trace",
        _ if opens(tip) => "opened at the end",
        _ => match other.ending {
            Ending::Wall(_) => "came to the end at a wall",
            Ending::Edge => "came to the end at the edge",
            Ending::Track(_) | Ending::Meeting(_) => "came to the end at a track",
        },
    }
}

/// Rows whose end a facing tip had come to, by whether that one is named, and how it came about.
fn count_facing(all: impl Iterator<Item = Records>) -> BTreeMap<&'static str, usize> {
    let mut counts = BTreeMap::new();
    for records in all {
        let rows = roll(&records);
        for row in &rows {
            let there = tracks_at_end(&records, &rows, row).expect("a roll of the rule");
            let tip = find(&records, row.id);
            let facing = there.keys().filter(|id| face(tip, find(&records, **id))).count();
            if facing > 0 && face(tip, find(&records, row.ending.partner())) {
                *counts.entry(how(&records, &rows, row)).or_default() += 1;
            } else if facing > 0 {
                *counts.entry("another track named").or_default() += 1;
            }
        }
    }
    counts
}

#[test]
fn what_is_asked_has_every_end_of_facing_tips() {
    let with_facing = frames::accepted(1).filter(|records| {
        let tracks = &records.tracks;
        tracks.iter().any(|tip| tracks.iter().any(|other| face(tip, other)))
    });
    let with_facing: Vec<Records> = with_facing.collect();
    println!("sheets and lists with facing tips: {}", with_facing.len());
    let counts = count_facing(with_facing.into_iter());
    println!("rows: {counts:?}");
    let all = [
        "another track named",
        "came to the end at a track",
        "came to the end at a wall",
        "met",
        "met as one opened",
        "opened at the end",
        "opened on the trace",
    ];
    // Where the edge ended one, another can only open.
    assert!(counts.keys().copied().eq(all) && counts.values().all(|count| *count > 40), "{counts:?}");
}

#[test]
fn chosen_sheets_with_facing_tips_have_them() {
    for sheet in chosen::facing::sheets() {
        let records = read(&sheet).expect("accepted");
        let faced = |tip: &Track| records.tracks.iter().any(|other| face(tip, other));
        assert!(records.tracks.iter().any(faced), "{records:?}");
    }
}
