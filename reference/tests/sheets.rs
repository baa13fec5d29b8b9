//! Reading and writing: the starred sheets, the ordered form, round trips, orders of commands.

use reference::chosen::late::tracks_starting;
use reference::chosen::{self, document, late, track, wall, walls};
use reference::made_up;
use reference::rng::Rng;
use reference::sheet::{check, commands, listing, ordered_form, read, whole_commands, write, Command};

fn all_sheets() -> Vec<Vec<u8>> {
    [chosen::all(), made_up::all(2)].concat()
}

#[test]
fn sheet_a_has_the_bytes_shown() {
    let shown = "01 01 00 64 00 64 00 0A 00 01 02 00 C8 00 32 00 00 0A 00";
    let bytes: Vec<u8> =
        shown.split(' ').map(|byte| u8::from_str_radix(byte, 16).expect("a byte in hexadecimal")).collect();
    assert_eq!(document::sheet("A"), bytes);
}

#[test]
fn sheets_of_the_document_are_accepted() {
    for (name, sheet) in document::sheets() {
        assert_eq!(read(&sheet).err(), None, "sheet {name}");
    }
}

#[test]
fn records_keep_their_order() {
    let listed = [track(9, 1, 2, 3, 4), wall(8, 100, 5, 6, 7), track(2, 4000, 256, -63, 63), wall(0, 0, 0, 9, 255)];
    let records = read(&listing(listed)).expect("accepted");
    let again: Vec<_> = commands(&records.tracks, &records.walls).collect();
    assert_eq!(again, [listed[0], listed[2], listed[1], listed[3]]);
}

#[test]
fn ordered_form_has_rising_ids() {
    let (low, high) = (track(0, 1, 2, 3, 4), track(65535, 9, 9, -1, 0));
    let (first, second) = (wall(255, 100, 5, 6, 7), wall(256, 0, 0, 9, 255));
    let records = read(&listing([second, high, first, low])).expect("accepted");
    let expected = listing([low, high, first, second]);
    assert_eq!(ordered_form(&records.tracks, &records.walls), expected);
}

#[test]
fn tracks_by_01_and_03_have_one_order() {
    let (low, middle, high) = (late(1, 1, 2, 3, 4, 5), track(2, 9, 9, -1, 0), late(3, 20, 30, 1, 1, 4095));
    let records = read(&listing([high, middle, low])).expect("accepted");
    assert_eq!(ordered_form(&records.tracks, &records.walls), listing([low, middle, high]));
}

#[test]
fn start_time_0_is_written_by_01() {
    let records = read(&listing([late(2, 1, 2, 3, 4, 0), late(1, 5, 6, 7, 8, 9)])).expect("accepted");
    let expected = listing([late(1, 5, 6, 7, 8, 9), track(2, 1, 2, 3, 4)]);
    assert_eq!(ordered_form(&records.tracks, &records.walls), expected);
    assert_eq!(expected.len(), 21);
}

#[test]
fn the_longest_ordered_form() {
    let tracks = tracks_starting(256, |i| Some(4095 - i));
    let records = read(&listing([tracks, walls(256)].concat())).expect("accepted");
    assert_eq!(ordered_form(&records.tracks, &records.walls).len(), 5633);
}

/// How many commands are 03 with start time 0.
fn needless(sheet: &[u8]) -> usize {
    let commands = whole_commands(sheet).expect("whole commands");
    commands.iter().filter(|command| matches!(command, Command::LateTrack(track) if track.start_time == 0)).count()
}

#[test]
fn read_after_write_and_write_after_read() {
    let (mut accepted, mut shorter) = (0, 0);
    for sheet in all_sheets() {
        let Ok(records) = read(&sheet) else { continue };
        let mut out = vec![0; sheet.len() - 2 * needless(&sheet)];
        let written = write(&records.tracks, &records.walls, &mut out);
        assert_eq!(written, Ok(out.len()));
        shorter += usize::from(out.len() < sheet.len());
        let mut again = read(&out).expect("the ordered form is accepted");
        assert_eq!(ordered_form(&again.tracks, &again.walls), out);
        assert!(again.tracks.is_sorted_by_key(|track| track.id));
        assert!(again.walls.is_sorted_by_key(|wall| wall.id));
        let mut expected = records;
        for records in [&mut again, &mut expected] {
            records.tracks.sort_by_key(|track| track.id);
            records.walls.sort_by_key(|wall| wall.id);
        }
        assert_eq!(again, expected);
        accepted += 1;
    }
    assert!(accepted > 3000 && shorter > 300);
}

#[test]
fn an_accepted_sheet_is_accepted_in_any_order() {
    let mut rng = Rng::new(3);
    for sheet in all_sheets() {
        let Ok(records) = read(&sheet) else { continue };
        let mut shuffled: Vec<_> = commands(&records.tracks, &records.walls).collect();
        rng.shuffle(&mut shuffled);
        let again = read(&listing(shuffled)).expect("accepted in another order");
        let form = ordered_form(&records.tracks, &records.walls);
        assert_eq!(ordered_form(&again.tracks, &again.walls), form);
        assert_eq!(check(&again.tracks, &again.walls), Ok(()));
    }
}

#[test]
fn a_refused_sheet_of_whole_commands_is_refused_in_any_order() {
    let mut rng = Rng::new(4);
    for _ in 0..2000 {
        let mut commands: Vec<_> = (0..6).map(|_| made_up::TINY.command(&mut rng)).collect();
        let accepted = read(&listing(commands.iter().copied())).is_ok();
        rng.shuffle(&mut commands);
        assert_eq!(read(&listing(commands)).is_ok(), accepted);
    }
}

#[test]
fn every_refusal_of_the_reader_occurs_often() {
    for sheets in [all_sheets(), [chosen::late::sheets(), made_up::late::all(2)].concat()] {
        let mut counts = [0; 11];
        for sheet in sheets {
            let number = read(&sheet).err().map_or(0, |refusal| refusal.number);
            counts[usize::from(number)] += 1;
        }
        assert!(counts.iter().all(|count| *count >= 15), "{counts:?}");
    }
}

#[test]
fn the_first_5643_bytes_decide() {
    let longer: Vec<_> = all_sheets().into_iter().filter(|sheet| sheet.len() > 5643).collect();
    assert!(longer.len() >= 6);
    for sheet in longer {
        assert_eq!(read(&sheet), read(&sheet[..5643]));
    }
}
