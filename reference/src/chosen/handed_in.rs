//! Records handed in: the chosen sheets with their tracks before their walls, counts above 256,
//! counts other than what is listed.

use super::late::tracks_starting;
use super::{document, late, limits, shapes, together, track, tracks, wall, walls};
use crate::handed_in::HandedIn;
use crate::sheet::{whole_commands, Command, Records};

fn counted(ntracks: u64, nwalls: u64, commands: &[Command]) -> HandedIn {
    HandedIn { ntracks, nwalls, listed: Records::of(commands) }
}

fn of_sheets() -> Vec<HandedIn> {
    let document = document::sheets().into_iter().map(|(_, sheet)| sheet);
    whole(document.chain(limits::sheets()).chain(together::sheets()))
}

/// Those sheets that are whole commands, at most 256 of each kind.
fn whole(sheets: impl Iterator<Item = Vec<u8>>) -> Vec<HandedIn> {
    let records = sheets.filter_map(|sheet| whole_commands(&sheet).ok()).map(|all| Records::of(&all));
    let has_room = |records: &Records| records.tracks.len().max(records.walls.len()) <= 256;
    records.filter(has_room).map(HandedIn::whole).collect()
}

/// 256 of each kind that may stand together, or 256 walls alone, with counts beyond them.
fn beyond_the_room() -> Vec<HandedIn> {
    let full = [tracks(256), walls(256)].concat();
    let beyond = [257, 258, 512, 65536, 1 << 32, u64::MAX / 9, u64::MAX];
    let tracks_beyond = beyond.map(|count| counted(count, 256, &full));
    let walls_beyond = beyond.map(|count| counted(256, count, &full));
    let walls_alone = beyond.map(|count| counted(0, count, &walls(256)));
    let tracks_alone = beyond.map(|count| counted(count, 0, &tracks(256)));
    let both = [counted(257, 257, &full), counted(u64::MAX, u64::MAX, &full)];
    [&tracks_beyond[..], &walls_beyond, &walls_alone, &tracks_alone, &both].concat()
}

/// What comes before the 257th is refused first, and what comes behind it is not looked at.
fn faulty_with_one_too_many() -> Vec<HandedIn> {
    let with = |mut commands: Vec<Command>, place: usize, faulty: Command| {
        commands[place] = faulty;
        commands
    };
    let faulty_track = |place| with(tracks(256), place, track(900, 4096, 0, 1, 0));
    let faulty_wall = |place| with(walls(256), place, wall(900, 7, 7, 7, 7));
    let tracks_first = [0, 1, 255].map(|place| counted(257, 3, &faulty_track(place)));
    let walls_first = [0, 1, 255].map(|place| counted(0, 257, &faulty_wall(place)));
    let after_tracks = [tracks(256), faulty_wall(0)].concat();
    let not_reached = [counted(257, 256, &after_tracks), counted(257, 257, &after_tracks)];
    let reached = [counted(256, 257, &after_tracks), counted(255, 257, &after_tracks)];
    let id_again = with(tracks(256), 255, track(0, 4095, 4095, 1, 0));
    let late = [counted(257, 0, &id_again), counted(256, 0, &id_again), counted(255, 0, &id_again)];
    [&tracks_first[..], &walls_first, &not_reached, &reached, &late].concat()
}

/// Fewer counted than are listed, or blank places counted too.
fn counts_and_lists() -> Vec<HandedIn> {
    let listed = [tracks(4), walls(4)].concat();
    let pairs = (0..=6).flat_map(|ntracks| (0..=6).map(move |nwalls| (ntracks, nwalls)));
    let small = pairs.map(|(ntracks, nwalls)| counted(ntracks, nwalls, &listed));
    let large = [4, 256, 257, 65540, u64::MAX].map(|count| counted(count, count, &listed));
    let empty = [0, 1, 256, 257, u64::MAX].map(|count| counted(count, count, &[]));
    let walls_only = [0, 1, 256, 257, u64::MAX].map(|count| counted(0, count, &[]));
    small.chain(large).chain(empty).chain(walls_only).collect()
}

/// Behind the records that count stand some that would be refused, or end a tip.
fn behind_the_counted() -> Vec<HandedIn> {
    let first = [track(1, 100, 100, 10, 0), wall(1, 4000, 4000, 4000, 4001)];
    let behind = [
        track(2, 5000, 0, 1, 1),
        track(2, 50, 50, 0, 0),
        track(1, 50, 50, 1, 0),
        track(2, 100, 100, 1, 0),
        track(2, 300, 100, -1, 0),
        track(2, 200, 100, 1, 0),
        wall(2, 7, 7, 7, 7),
        wall(1, 7, 7, 8, 8),
        wall(2, 0, 100, 200, 100),
        wall(2, 150, 0, 150, 200),
    ];
    let with = |last| [&first[..], &[last]].concat();
    let left_out = behind.map(|last| counted(1, 1, &with(last)));
    let counted_too = behind.map(|last| HandedIn::whole(Records::of(&with(last))));
    [left_out, counted_too].concat()
}

/// Places, where tracks are 9 or 11 bytes of the sheet that the records stand for; blanks counted behind late tracks.
fn with_start_times() -> Vec<HandedIn> {
    let some = |i: u16| Some(i % 3);
    let full = [tracks_starting(256, some), walls(256)].concat();
    let beyond = [(257, 256), (256, 257), (257, 257), (u64::MAX, u64::MAX), (0, 257), (5, 257), (6, 257)];
    let beyond = beyond.map(|(ntracks, nwalls)| counted(ntracks, nwalls, &full));
    let few = [tracks_starting(4, some), walls(4)].concat();
    let pairs = [(0, 1), (3, 4), (4, 4), (4, 5), (5, 0), (4, 257), (257, 4)];
    let few = pairs.map(|(ntracks, nwalls)| counted(ntracks, nwalls, &few));
    let used_again = |id: u16| [tracks_starting(6, some), vec![late(id, 9, 9, 1, 1, 7)]].concat();
    let used_again = [0, 1, 5].map(|id| HandedIn::whole(Records::of(&used_again(id))));
    [&whole(late::sheets().into_iter().step_by(3))[..], &beyond, &few, &used_again].concat()
}

pub fn all() -> Vec<HandedIn> {
    let records =
        [of_sheets(), beyond_the_room(), faulty_with_one_too_many(), counts_and_lists(), behind_the_counted()];
    let shapes = whole(shapes::sheets().into_iter().step_by(3));
    [records.concat(), with_start_times(), shapes].concat()
}
