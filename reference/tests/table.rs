//! The lines of the refusal table (SHEETS 3.1), each with examples of its own.

use reference::chosen::late::{mixed, tracks_starting};
use reference::chosen::{self, late, together, track, tracks, wall, walls};
use reference::made_up;
use reference::refusal::Refusal;
use reference::sheet::{check, listing, read, write, Command, Records, Track, Wall};

fn refusal(bytes: &[u8]) -> Option<(u8, usize)> {
    read(bytes).err().map(|refusal| (refusal.number, refusal.place))
}

fn refusal_of(commands: &[Command]) -> Option<(u8, usize)> {
    refusal(&listing(commands.iter().copied()))
}

fn bytes_of_one_track() -> Vec<u8> {
    listing([track(1, 2, 3, 4, 5)])
}

#[test]
fn command_byte_above_three_is_1() {
    for byte in 4..=255 {
        assert_eq!(refusal(&[byte]), Some((1, 0)));
        let mut bytes = bytes_of_one_track();
        bytes.insert(9, byte);
        assert_eq!(refusal(&bytes), Some((1, 9)));
    }
}

#[test]
fn operands_cut_short_are_2_at_the_command() {
    let whole = listing([track(1, 2, 3, 4, 5), wall(1, 6, 7, 8, 9)]);
    assert_eq!(whole.len(), 21);
    for length in 0..whole.len() {
        let place = match length {
            0..=8 => 0,
            9..=19 => 9,
            _ => 20,
        };
        assert_eq!(refusal(&whole[..length]), Some((2, place)), "{length} bytes");
    }
    assert_eq!(refusal(&whole), None);
}

#[test]
fn operands_of_03_cut_short_are_2_at_the_command() {
    let whole = listing([late(1, 2, 3, 4, 5, 6), track(2, 7, 8, 9, 10)]);
    assert_eq!(whole.len(), 21);
    for length in 0..whole.len() {
        let place = match length {
            0..=10 => 0,
            11..=19 => 11,
            _ => 20,
        };
        assert_eq!(refusal(&whole[..length]), Some((2, place)), "{length} bytes");
    }
    assert_eq!(refusal(&whole), None);
}

#[test]
fn no_end_is_2_at_the_input_length() {
    assert_eq!(refusal(&[]), Some((2, 0)));
    assert_eq!(refusal(&bytes_of_one_track()[..9]), Some((2, 9)));
}

#[test]
fn bytes_after_the_end_are_3() {
    assert_eq!(refusal(&[0, 0]), Some((3, 1)));
    assert_eq!(refusal(&[0, 255, 255]), Some((3, 1)));
    let mut bytes = bytes_of_one_track();
    bytes.extend([1, 1]);
    assert_eq!(refusal(&bytes), Some((3, 10)));
}

#[test]
fn coordinate_above_4095_is_4() {
    let before = track(1, 4095, 4095, 1, 1);
    let wall_before = wall(1, 4095, 0, 0, 4095);
    assert_eq!(refusal_of(&[before, wall_before]), None);
    for beyond in [4096, 4097, 8191, 32768, 65535] {
        assert_eq!(refusal_of(&[before, track(2, beyond, 0, 1, 1)]), Some((4, 9)));
        assert_eq!(refusal_of(&[before, track(2, 0, beyond, 1, 1)]), Some((4, 9)));
        assert_eq!(refusal_of(&[wall_before, wall(2, beyond, 1, 2, 3)]), Some((4, 11)));
        assert_eq!(refusal_of(&[wall_before, wall(2, 1, beyond, 2, 3)]), Some((4, 11)));
        assert_eq!(refusal_of(&[wall_before, wall(2, 1, 2, beyond, 3)]), Some((4, 11)));
        assert_eq!(refusal_of(&[wall_before, wall(2, 1, 2, 3, beyond)]), Some((4, 11)));
    }
}

#[test]
fn start_time_above_4095_is_4() {
    let before = track(1, 40, 50, 1, 1);
    for time in [0, 1, 255, 256, 4095] {
        assert_eq!(refusal_of(&[before, late(2, 5, 6, 1, 1, time)]), None);
    }
    for beyond in [4096, 4097, 8191, 32768, 65535] {
        assert_eq!(refusal_of(&[before, late(2, 5, 6, 1, 1, beyond)]), Some((4, 9)));
        // Before 5 and 8 and after 7.
        assert_eq!(refusal_of(&[before, late(1, 5, 6, 0, 0, beyond)]), Some((4, 9)));
        assert_eq!(refusal_of(&[tracks(256), vec![late(900, 1, 1, 1, 1, beyond)]].concat()), Some((7, 256 * 9)));
    }
}

#[test]
fn speed_outside_63_or_zero_is_5() {
    for speed in -128..=127 {
        let expected = if (-63..=63).contains(&speed) { None } else { Some((5, 0)) };
        assert_eq!(refusal_of(&[track(1, 2, 3, speed, 1)]), expected);
        assert_eq!(refusal_of(&[track(1, 2, 3, -1, speed)]), expected);
    }
    assert_eq!(refusal_of(&[track(1, 2, 3, 0, 0)]), Some((5, 0)));
    assert_eq!(refusal_of(&[track(1, 2, 3, 0, -1)]), None);
}

#[test]
fn wall_with_equal_ends_is_6() {
    assert_eq!(refusal_of(&[wall(1, 7, 8, 7, 8)]), Some((6, 0)));
    assert_eq!(refusal_of(&[wall(1, 7, 8, 8, 7)]), None);
    assert_eq!(refusal_of(&[wall(1, 7, 8, 7, 9)]), None);
}

#[test]
fn the_257th_of_its_kind_is_7() {
    assert_eq!(refusal_of(&tracks(256)), None);
    assert_eq!(refusal_of(&walls(256)), None);
    assert_eq!(refusal_of(&[tracks(256), walls(256)].concat()), None);
    assert_eq!(refusal_of(&tracks(257)), Some((7, 256 * 9)));
    assert_eq!(refusal_of(&walls(257)), Some((7, 256 * 11)));
    let both = [tracks(256), walls(257)].concat();
    assert_eq!(refusal_of(&both), Some((7, 256 * 20)));
}

#[test]
fn tracks_by_01_and_03_are_counted_together() {
    let place = 128 * 9 + 128 * 11;
    assert_eq!(refusal_of(&mixed(256)), None);
    assert_eq!(refusal_of(&mixed(257)), Some((7, place)));
    assert_eq!(refusal_of(&[mixed(256), vec![late(900, 1, 1, 1, 1, 1)]].concat()), Some((7, place)));
    let full = tracks_starting(256, Some);
    assert_eq!(refusal_of(&[full.clone(), walls(256)].concat()), None);
    assert_eq!(refusal_of(&[full.clone(), vec![track(900, 1, 1, 1, 1)]].concat()), Some((7, 256 * 11)));
    assert_eq!(refusal_of(&[full, walls(257)].concat()), Some((7, 256 * 22)));
}

#[test]
fn id_used_by_its_kind_is_8() {
    for id in [0, 7, 65535] {
        let (a_track, a_wall) = (track(id, 2, 3, 4, 5), wall(id, 20, 30, 40, 50));
        assert_eq!(refusal_of(&[a_track, a_wall]), None);
        assert_eq!(refusal_of(&[a_track, a_wall, track(id, 9, 9, 1, 1)]), Some((8, 20)));
        assert_eq!(refusal_of(&[a_track, a_wall, wall(id, 9, 9, 8, 8)]), Some((8, 20)));
    }
}

#[test]
fn an_id_is_used_by_01_and_by_03() {
    let (one, other) = (track(7, 2, 3, 4, 5), late(7, 20, 30, 4, 5, 6));
    assert_eq!(refusal_of(&[one, other]), Some((8, 9)));
    assert_eq!(refusal_of(&[other, one]), Some((8, 11)));
    assert_eq!(refusal_of(&[other, late(7, 40, 50, 4, 5, 7)]), Some((8, 11)));
    assert_eq!(refusal_of(&[other, wall(7, 40, 50, 4, 5)]), None);
}

#[test]
fn start_already_used_is_9() {
    assert_eq!(refusal_of(&[track(1, 2, 3, 4, 5), track(2, 2, 3, -4, 5)]), Some((9, 9)));
    assert_eq!(refusal_of(&[track(1, 2, 3, 4, 5), late(2, 2, 3, -4, 5, 100)]), Some((9, 9)));
    assert_eq!(refusal_of(&[late(1, 2, 3, 4, 5, 4095), late(2, 2, 3, 4, 5, 100)]), Some((9, 11)));
    assert_eq!(refusal_of(&[track(1, 2, 3, 4, 5), track(2, 3, 2, 4, 5)]), None);
}

#[test]
fn start_on_a_wall_is_10_at_the_later_command() {
    let slanted = wall(1, 10, 10, 18, 14);
    for (x, y, on_wall) in [
        (10, 10, true),
        (18, 14, true),
        (12, 11, true),
        (8, 9, false),
        (20, 15, false),
        (12, 12, false),
        (13, 11, false),
    ] {
        let start = track(1, x, y, 1, 0);
        let expected = |place| if on_wall { Some((10, place)) } else { None };
        assert_eq!(refusal_of(&[slanted, start]), expected(11), "wall, then ({x}, {y})");
        assert_eq!(refusal_of(&[start, slanted]), expected(9), "({x}, {y}), then wall");
        let start = late(1, x, y, 1, 0, 4000);
        assert_eq!(refusal_of(&[slanted, start]), expected(11), "wall, then ({x}, {y}) late");
        assert_eq!(refusal_of(&[start, slanted]), expected(11), "({x}, {y}) late, then wall");
    }
}

/// Nothing is refused as 11 any more.
#[test]
fn facing_tips_are_accepted() {
    let facing = [
        [track(1, 0, 0, 1, 0), track(2, 10, 0, -1, 0)],
        [track(1, 5, 90, 0, -7), track(2, 5, 3, 0, 63)],
        [track(1, 10, 10, 2, 2), track(2, 13, 13, -5, -5)],
        [track(1, 10, 10, -4, 6), track(2, 6, 16, 2, -3)],
    ];
    for pair in facing {
        assert_eq!(refusal_of(&pair), None, "{pair:?}");
        for times in [[0, 90], [90, 0], [4095, 4095]] {
            let late = pair.map(|command| command.as_track().expect("a track"));
            let late = [0, 1].map(|i| Command::LateTrack(Track { start_time: times[i], ..late[i] }));
            assert_eq!(refusal_of(&late), None, "{late:?}");
            let records = Records::of(&late);
            assert_eq!(check(&records.tracks, &records.walls), Ok(()));
        }
    }
    // They may not start at one point, nor on a wall.
    assert_eq!(refusal_of(&[track(1, 0, 0, 1, 0), track(2, 0, 0, -1, 0)]), Some((9, 9)));
    assert_eq!(refusal_of(&[facing[0][0], wall(1, 10, 0, 10, 5), facing[0][1]]), Some((10, 20)));
    assert_eq!(refusal_of(&[facing[0][0], facing[0][1], wall(1, 10, 0, 10, 5)]), Some((10, 18)));
}

#[test]
fn no_sheet_is_refused_as_11() {
    for sheet in [chosen::all(), made_up::all(3)].concat() {
        assert_ne!(refusal(&sheet).map(|(number, _)| number), Some(11), "{sheet:?}");
    }
}

#[test]
fn the_first_rule_of_the_order_is_returned() {
    for (rules, bytes) in together::at_one_command() {
        let (number, place) = refusal(&bytes).expect("a faulty command");
        assert_eq!(number, rules[0]);
        assert!([bytes.len() - 10, bytes.len() - 12].contains(&place));
    }
    for (_, bytes) in together::one_too_many() {
        assert_eq!(refusal(&bytes).map(|(number, _)| number), Some(7));
    }
    for bytes in together::cut_short() {
        assert_eq!(refusal(&bytes).map(|(number, _)| number), Some(2));
    }
}

#[test]
fn the_first_command_is_returned_whatever_its_number() {
    let on_a_wall = [track(1, 30, 40, 1, 0), wall(1, 30, 30, 30, 50)];
    let then = |next| refusal_of(&[on_a_wall[0], on_a_wall[1], next]);
    assert_eq!(then(track(3, 4096, 0, 1, 0)), Some((10, 9)));
    assert_eq!(then(wall(1, 5, 5, 5, 5)), Some((10, 9)));
    let mut bytes = listing(on_a_wall);
    bytes.push(3);
    assert_eq!(refusal(&bytes), Some((10, 9)));
}

#[test]
fn handed_in_records_are_refused_as_the_sheet_that_lists_them() {
    let interleaved = [wall(1, 30, 30, 30, 50), track(1, 30, 40, 1, 0), track(2, 30, 40, -1, 0), wall(1, 7, 7, 7, 7)];
    let tracks_first = [interleaved[1], interleaved[2], interleaved[0], interleaved[3]];
    let records = Records::of(&interleaved);
    let expected = Err(Refusal { number: 9, place: 9 });
    assert_eq!(check(&records.tracks, &records.walls), expected);
    assert_eq!(read(&listing(tracks_first)).map(|_| ()), expected);
    assert_eq!(refusal_of(&interleaved), Some((10, 11)));
}

#[test]
fn places_of_handed_in_records_go_by_01_where_the_start_time_is_0() {
    // The sheet itself lists 03 with start time 0; the records stand for one that lists 01.
    let listed = [late(1, 2, 3, 4, 5, 0), late(2, 6, 7, 8, 9, 1), track(2, 20, 30, 1, 0)];
    assert_eq!(refusal_of(&listed), Some((8, 22)));
    let records = Records::of(&listed);
    assert_eq!(check(&records.tracks, &records.walls), Err(Refusal { number: 8, place: 20 }));
}

#[test]
fn handed_in_counts_above_256_are_7_whatever_they_hold() {
    let nonsense = Track { id: 0, x: 5000, y: 0, vx: 0, vy: 0, start_time: 5000 };
    let mut records = Records::of(&[tracks(256), walls(256)].concat());
    assert_eq!(check(&records.tracks, &records.walls), Ok(()));
    records.walls.extend([Wall { id: 0, ax: 0, ay: 0, bx: 0, by: 0 }; 300]);
    let expected = Err(Refusal { number: 7, place: 256 * 20 });
    assert_eq!(check(&records.tracks, &records.walls), expected);
    records.tracks.extend([nonsense; 300]);
    let expected = Err(Refusal { number: 7, place: 256 * 9 });
    assert_eq!(check(&records.tracks, &records.walls), expected);
}

#[test]
fn output_too_short_is_12_and_nothing_is_written() {
    let records = read(&chosen::document::sheet("F")).expect("accepted");
    let mut out = [0xEE; 40];
    for length in 0..30 {
        let refused = write(&records.tracks, &records.walls, &mut out[..length]);
        assert_eq!(refused, Err(Refusal { number: 12, place: 30 }));
        assert_eq!(out, [0xEE; 40]);
    }
    assert_eq!(write(&records.tracks, &records.walls, &mut out), Ok(30));
    assert_eq!(out[30..], [0xEE; 10]);
}

#[test]
fn the_writer_refuses_the_sheet_before_the_output() {
    let records = Records::of(&[track(1, 2, 3, 0, 0)]);
    let refused = write(&records.tracks, &records.walls, &mut []);
    assert_eq!(refused, Err(Refusal { number: 5, place: 0 }));
}
