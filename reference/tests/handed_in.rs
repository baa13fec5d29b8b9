//! Records handed in: refused as the sheet that lists them.

use reference::chosen::late::tracks_starting;
use reference::chosen::{self, track, tracks, wall, walls};
use reference::handed_in::HandedIn;
use reference::made_up;
use reference::refusal::Refusal;
use reference::sheet::{commands, listing, read, Command, Records, Track, Wall};

fn all_handed_in() -> Vec<HandedIn> {
    [chosen::handed_in::all(), made_up::handed_in::all(1)].concat()
}

fn refusal(ntracks: u64, nwalls: u64, commands: &[Command]) -> Option<(u8, usize)> {
    let handed_in = HandedIn { ntracks, nwalls, listed: Records::of(commands) };
    handed_in.check().err().map(|refusal| (refusal.number, refusal.place))
}

#[test]
fn counts_above_256_are_7_at_the_257th_of_its_kind() {
    let full = [tracks(256), walls(256)].concat();
    assert_eq!(refusal(256, 256, &full), None);
    for beyond in [257, 300, 65536, u64::MAX] {
        assert_eq!(refusal(beyond, 256, &full), Some((7, 2304)));
        assert_eq!(refusal(beyond, beyond, &full), Some((7, 2304)));
        assert_eq!(refusal(256, beyond, &full), Some((7, 5120)));
        assert_eq!(refusal(2, beyond, &full), Some((7, 2834)));
        assert_eq!(refusal(0, beyond, &full), Some((7, 2816)));
    }
}

#[test]
fn the_place_of_the_257th_depends_on_the_start_times() {
    let full = [tracks_starting(256, Some), walls(256)].concat();
    assert_eq!(refusal(256, 256, &full), None);
    // The first start time is 0.
    assert_eq!(refusal(257, 0, &full), Some((7, 2814)));
    assert_eq!(refusal(256, 257, &full), Some((7, 5630)));
    assert_eq!(refusal(2, 257, &full), Some((7, 2836)));
}

#[test]
fn what_comes_before_the_257th_is_refused_first() {
    let mut commands = tracks(256);
    commands[255] = track(255, 4096, 0, 1, 1);
    assert_eq!(refusal(257, 0, &commands), Some((4, 2295)));
    assert_eq!(refusal(255, 0, &commands), None);
    let few = [track(1, 2, 3, 4, 5), wall(1, 7, 7, 7, 7)];
    assert_eq!(refusal(1, 257, &few), Some((6, 9)));
    // A blank place that counts has no speed, or equal ends.
    assert_eq!(refusal(257, 0, &few), Some((5, 9)));
    assert_eq!(refusal(0, 257, &[]), Some((6, 0)));
}

#[test]
fn what_stands_behind_the_counted_does_not_count() {
    let listed = [track(1, 2, 3, 4, 5), track(1, 2, 3, 0, 0), wall(1, 7, 7, 7, 7)];
    assert_eq!(refusal(1, 0, &listed), None);
    assert_eq!(refusal(2, 0, &listed), Some((5, 9)));
    assert_eq!(refusal(1, 1, &listed), Some((6, 9)));
    let handed_in = HandedIn { ntracks: 1, nwalls: 0, listed: Records::of(&listed) };
    assert_eq!(handed_in.check(), Ok(Records::of(&listed[..1])));
}

const BLANK: Track = Track { id: 0, x: 0, y: 0, vx: 0, vy: 0, start_time: 0 };

/// The sheet that lists the counted records. It need not go far beyond the 257th.
fn listed_sheet(handed_in: &HandedIn) -> Vec<u8> {
    let HandedIn { ntracks, nwalls, listed } = handed_in;
    let mut all = listed.clone();
    all.tracks.resize((*ntracks).min(300) as usize, BLANK);
    all.walls.resize((*nwalls).min(300) as usize, Wall { id: 0, ax: 0, ay: 0, bx: 0, by: 0 });
    listing(commands(&all.tracks, &all.walls))
}

#[test]
fn all_are_refused_as_the_sheet_that_lists_them() {
    for handed_in in all_handed_in() {
        assert_eq!(handed_in.check(), read(&listed_sheet(&handed_in)), "{handed_in:?}");
    }
}

#[test]
fn every_refusal_of_records_occurs_often() {
    let mut counts = [0; 11];
    let mut too_many = [0; 2];
    for handed_in in all_handed_in() {
        match handed_in.check() {
            Ok(_) => counts[0] += 1,
            Err(Refusal { number, place }) => {
                counts[usize::from(number)] += 1;
                too_many[usize::from(place > 2304)] += usize::from(number == 7);
            }
        }
    }
    assert_eq!(counts[1..4], [0; 3]);
    assert!(counts[0] > 600 && counts[4..].iter().all(|count| *count >= 20), "{counts:?}");
    assert!(too_many.iter().all(|count| *count >= 10), "{too_many:?}");
}
