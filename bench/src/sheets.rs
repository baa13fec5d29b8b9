//! The sheets that are timed.

use reference::cells::{cells_of, Cell, FIGURES};
use reference::made_up::{Ground, BORDERS, SMALL, WHOLE};
use reference::plane::Vector;
use reference::rng::Rng;
use reference::roll::{roll, Row};
use reference::sheet::{commands, listing, read, Command, Records, Track};
use std::collections::BTreeMap;

const SEED: u64 = 7;
const SIZES: [(usize, usize); 6] = [(16, 0), (64, 0), (256, 0), (16, 256), (64, 256), (256, 256)];

pub struct Timed {
    kind: &'static str,
    pub bytes: Vec<u8>,
    pub records: Records,
    /// At each figure a cell with the most ids, and their number.
    fullest: [(Cell, usize); 6],
}

/// Each row with its track.
fn ends<'a>(records: &'a Records, rows: &'a [Row]) -> impl Iterator<Item = (&'a Track, &'a Row)> {
    let track_of = |row: &Row| records.tracks.iter().find(|track| track.id == row.id);
    rows.iter().map(move |row| (track_of(row).expect("a row's track"), row))
}

/// A cell with points of the most traces, and their number.
fn fullest(records: &Records, rows: &[Row], figure: u64) -> (Cell, usize) {
    let mut ids: BTreeMap<Cell, usize> = BTreeMap::new();
    for cell in ends(records, rows).flat_map(|(track, row)| cells_of(track, row.time, figure)) {
        *ids.entry(cell).or_default() += 1;
    }
    ids.into_iter().max_by_key(|(_, ids)| *ids).expect("a track")
}

impl Timed {
    fn new(kind: &'static str, listed: Vec<Command>) -> Timed {
        let bytes = listing(listed);
        let records = read(&bytes).expect("accepted");
        let rows = roll(&records);
        let fullest = FIGURES.map(|figure| fullest(&records, &rows, figure));
        Timed { kind, bytes, records, fullest }
    }

    /// The kind, and what the sheet holds, which may be fewer records than were wanted.
    pub fn name(&self) -> String {
        let [tracks, walls] = [self.records.tracks.len(), self.records.walls.len()];
        let walls = if walls == 0 { String::new() } else { format!(", {walls} walls") };
        format!("{}, {tracks} tracks{walls}", self.kind)
    }

    pub fn half(&self) -> usize {
        self.records.tracks.len() / 2
    }

    /// A cell with the most ids at one of the six figures, which are powers of 2, and their number.
    pub fn fullest(&self, figure: u64) -> (Cell, usize) {
        self.fullest[figure.trailing_zeros() as usize]
    }

    /// The same records, the tracks by rising and by falling id.
    pub fn by_id(&self) -> [Timed; 2] {
        let mut rising = self.records.clone();
        rising.tracks.sort_by_key(|track| track.id);
        let mut falling = rising.clone();
        falling.tracks.reverse();
        [("ids rising", rising), ("ids falling", falling)]
            .map(|(kind, records)| Timed::new(kind, commands(&records.tracks, &records.walls).collect()))
    }

    /// The sheet's side in mean lengths of its traces.
    pub fn mean_lengths_in_a_side(&self) -> f64 {
        let length = |track: &Track, age: f64| age * f64::from(track.vx).hypot(track.vy.into());
        let rows = roll(&self.records);
        let lengths = ends(&self.records, &rows).map(|(track, row)| {
            let (num, den) = row.time_in_lowest_terms();
            length(track, num as f64 / den as f64 - f64::from(track.start_time))
        });
        4096.0 * rows.len() as f64 / lengths.sum::<f64>()
    }

    /// 256 tracks, the mean trace shorter than a 16th of the sheet, not all of them in one small place.
    pub fn is_full_with_short_traces(&self) -> bool {
        self.records.tracks.len() == 256 && self.mean_lengths_in_a_side() > 16.0 && self.kind != "snapped"
    }
}

/// Do the two run toward each other along one line (SHEETS 4.15)?
fn face(a: &Track, b: &Track) -> bool {
    let gap = b.start() - a.start();
    let ahead = |way: Vector, speed: Vector| way.cross(speed) == 0 && way.dot(speed) > 0;
    ahead(gap, a.speed()) && ahead(-gap, b.speed())
}

/// Tracks and walls as `fill_facing` gives them, but no two tips that face each other: such sheets were refused once, and builds of then
/// and now are compared on these.
fn fill(tracks: usize, walls: usize, make: impl FnMut(&mut Rng) -> Command) -> Vec<Command> {
    fill_with(tracks, walls, |records, track| !records.tracks.iter().any(|other| face(track, other)), make)
}

fn fill_facing(tracks: usize, walls: usize, make: impl FnMut(&mut Rng) -> Command) -> Vec<Command> {
    fill_with(tracks, walls, |_, _| true, make)
}

/// So many tracks and walls of those that are made, the tracks such as are wanted, or fewer where there is no room for them.
fn fill_with(
    tracks: usize,
    walls: usize,
    suits: impl Fn(&Records, &Track) -> bool,
    mut make: impl FnMut(&mut Rng) -> Command,
) -> Vec<Command> {
    let mut rng = Rng::new(SEED);
    let mut records = Records::default();
    let mut listed = Vec::new();
    for _ in 0..200_000 {
        if records.tracks.len() == tracks && records.walls.len() == walls {
            break;
        }
        let command = make(&mut rng);
        let wanted = match command {
            Command::Track(_) | Command::LateTrack(_) => records.tracks.len() < tracks,
            Command::Wall(_) => records.walls.len() < walls,
            Command::End => false,
        };
        let suits = command.as_track().is_none_or(|track| suits(&records, &track));
        if wanted && suits && records.admit(command).is_ok() {
            listed.push(command);
        }
    }
    listed
}

/// A random track that meets this one soon, if it can start inside the sheet: at one point, at time 1 or 2.
fn meeting(track: &Track, rng: &mut Rng) -> Option<Command> {
    let other = WHOLE.command(rng).as_track()?;
    let time = 1 + rng.below(2) as i64;
    let start = track.start() + (track.speed() - other.speed()) * time;
    let [x, y] = [start.x, start.y].map(|along| u16::try_from(along).ok());
    Some(Command::Track(Track { id: !track.id, x: x?, y: y?, ..other }))
}

/// Random walls, and tracks all over the sheet that meet by twos.
fn short(tracks: usize, walls: usize) -> Vec<Command> {
    let mut partner = None;
    fill(tracks, walls, |rng| {
        if let Some(command) = partner.take() {
            return command;
        }
        let command = WHOLE.command(rng);
        let Some(track) = command.as_track() else { return command };
        let track = Track { id: rng.draw() as u16, ..track };
        partner = (0..100).find_map(|_| meeting(&track, rng));
        Command::Track(track)
    })
}

/// Random, with start times from 0 to 63, so that many tips open while others run.
fn late(tracks: usize, walls: usize) -> Vec<Command> {
    fill(tracks, walls, |rng| {
        let command = WHOLE.command(rng);
        let open = |track| Track { start_time: rng.below(64) as u16, ..track }.command();
        command.as_track().map_or(command, open)
    })
}

/// A point of the sheet, and a direction.
type Line = ([u16; 2], [i8; 2]);

fn line(rng: &mut Rng) -> Line {
    let point = [0; 2].map(|_: u16| rng.below(4096) as u16);
    (point, rng.pick(&[[1, 0], [0, 1], [1, 1], [1, -1], [2, 1], [1, -3], [3, 2]]))
}

/// A tip on the line, not far from its point and running either way, with a start time from 0 to 15; none if it starts outside the sheet.
fn tip_on(line: &Line, rng: &mut Rng) -> Option<Command> {
    let ([x, y], [vx, vy]) = *line;
    let (steps, speed) = (rng.below(512) as i32 - 256, 1 + rng.below(21) as i8);
    let along = |from: u16, part: i8| u16::try_from(i32::from(from) + steps * i32::from(part)).ok();
    let speed = if rng.one_in(2) { speed } else { -speed };
    let (id, start_time) = (rng.draw() as u16, rng.below(16) as u16);
    Some(Track { id, x: along(x, vx)?, y: along(y, vy)?, vx: speed * vx, vy: speed * vy, start_time }.command())
}

/// Random walls, and tips about eight to a line, so that most have one that runs toward them.
fn facing(tracks: usize, walls: usize) -> Vec<Command> {
    let mut shared = None;
    fill_facing(tracks, walls, |rng| {
        let command = WHOLE.command(rng);
        if command.as_track().is_none() {
            return command;
        }
        let line = shared.take().filter(|_| !rng.one_in(8)).unwrap_or_else(|| line(rng));
        shared = Some(line);
        tip_on(&line, rng).unwrap_or(Command::End)
    })
}

pub fn on_ground(kind: &'static str, ground: &Ground, tracks: usize, walls: usize) -> Timed {
    Timed::new(kind, fill(tracks, walls, |rng| ground.command(rng)))
}

pub fn with_short_traces(tracks: usize, walls: usize) -> Timed {
    Timed::new("short", short(tracks, walls))
}

/// Random; on cell borders; on a field of 20 × 20 points, which has no room for 256 tracks beside 256 walls; with short traces; random
/// with start times; facing each other on common lines. All but the last two start at 0.
pub fn all() -> Vec<Timed> {
    let grounds = [("random", WHOLE), ("borders", BORDERS), ("snapped", SMALL)];
    let of =
        |(kind, ground): (&'static str, Ground)| SIZES.map(|(tracks, walls)| on_ground(kind, &ground, tracks, walls));
    let short = SIZES.map(|(tracks, walls)| with_short_traces(tracks, walls));
    let late = SIZES.map(|(tracks, walls)| Timed::new("late", late(tracks, walls)));
    let facing = SIZES.map(|(tracks, walls)| Timed::new("facing", facing(tracks, walls)));
    grounds.into_iter().flat_map(of).chain(short).chain(late).chain(facing).collect()
}
