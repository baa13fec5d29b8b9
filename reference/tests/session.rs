//! Sessions (SHEETS 7, 11.3, 11.4): by hand, and after made-up keys.

use reference::chosen::document;
use reference::frames;
use reference::made_up::keys::{keys, numbers, Pressed};
use reference::refusal::{Refusal, OUTPUT_TOO_SHORT};
use reference::rng::Rng;
use reference::roll::{roll, Row};
use reference::session::{press, Answer, Key, Session};
use reference::sheet::read;

const ROW: usize = Row::LENGTH;

fn document_roll(name: &str) -> Vec<Row> {
    roll(&read(&document::sheet(name)).expect("accepted"))
}

/// Of chosen and made-up sheets.
fn rolls() -> impl Iterator<Item = Vec<Row>> {
    frames::accepted(1).map(|records| roll(&records))
}

fn too_short(needed: usize) -> Refusal {
    Refusal { number: OUTPUT_TOO_SHORT, place: needed }
}

#[test]
fn keys_on_sheet_e() {
    let rows = document_roll("E");
    let mut session = Session::open(&rows);
    assert_eq!(session, Session { shown: 0, running: 4 });
    assert_eq!(session.advance(&rows, 1, ROW), Ok(&rows[..1]));
    assert_eq!(session, Session { shown: 1, running: 3 });
    assert_eq!(session.advance(&rows, 2, 2 * ROW - 1), Err(too_short(60)));
    assert_eq!(session, Session { shown: 1, running: 3 });
    assert_eq!(session.advance(&rows, 0, 0), Ok(&rows[..0]));
    assert_eq!(session, Session { shown: 1, running: 3 });
    assert_eq!(session.advance(&rows, u64::MAX, 3 * ROW), Ok(&rows[1..]));
    assert_eq!(session, Session { shown: 4, running: 0 });
    assert_eq!(session.advance(&rows, 1, 0), Ok(&rows[..0]));
    assert_eq!(session, Session { shown: 4, running: 0 });
    session.reset(&rows);
    assert_eq!(session, Session { shown: 0, running: 4 });
}

#[test]
fn without_tracks_nothing_runs() {
    let mut session = Session::open(&[]);
    assert_eq!(session.advance(&[], 3, 0), Ok(&[][..]));
    assert_eq!(session, Session { shown: 0, running: 0 });
}

#[test]
fn sessions_handed_in_over_sheet_e() {
    let rows = document_roll("E");
    let pressed = |key, [shown, running]: [u64; 2], room| {
        let mut numbers = [shown, running, 8, 9];
        let second = press(key, Ok(&rows), &mut numbers, room).map(|answer| answer.second);
        assert_eq!(numbers[2..], [8, 9]);
        (second, [numbers[0], numbers[1]])
    };
    // A wrong number still running.
    assert_eq!(pressed(Key::Running, [1, 7], 0), (Ok(3), [1, 7]));
    assert_eq!(pressed(Key::Advance(1), [1, 7], ROW), (Ok(1), [2, 2]));
    assert_eq!(pressed(Key::Advance(1), [1, 7], ROW - 1), (Err(too_short(30)), [1, 7]));
    assert_eq!(pressed(Key::Advance(0), [1, 7], 0), (Ok(0), [1, 3]));
    assert_eq!(pressed(Key::Reset, [1, 7], 0), (Ok(0), [0, 4]));
    assert_eq!(pressed(Key::Open, [1, 7], 0), (Ok(0), [0, 4]));
    // More rows shown than there are.
    for shown in [5, 256, u64::MAX] {
        assert_eq!(pressed(Key::Running, [shown, 4], 0), (Ok(0), [shown, 4]));
        assert_eq!(pressed(Key::Advance(9), [shown, 4], 0), (Ok(0), [4, 0]));
    }
}

#[test]
fn the_sheet_is_refused_before_the_numbers_and_these_before_the_output() {
    let rows = document_roll("E");
    let refused = read(&[4]).map(|_| &[][..]);
    for key in [Key::Open, Key::Advance(1), Key::Reset, Key::Running] {
        for came in [&[][..], &[3], &[3, 7]] {
            let mut numbers = came.to_vec();
            assert_eq!(press(key, refused, &mut numbers, 0), Err(Refusal { number: 1, place: 0 }));
            assert_eq!(numbers, came);
        }
        for came in [&[][..], &[3]] {
            let mut numbers = came.to_vec();
            assert_eq!(press(key, Ok(&rows), &mut numbers, 0), Err(too_short(2)));
            assert_eq!(numbers, came);
        }
    }
    assert_eq!(press(Key::Advance(1), Ok(&rows), &mut [0, 0], 0), Err(too_short(30)));
}

/// What a session holds against the rows that were seen since its opening or the last reset (SHEETS 7.9).
#[test]
fn after_any_keys_the_number_held_is_that_of_the_rows_not_yet_shown() {
    let mut rng = Rng::new(1);
    let mut refused = 0;
    for rows in rolls() {
        let (mut held, mut seen) = (numbers(&mut rng, rows.len()), Vec::<Row>::new());
        press(Key::Open, Ok(&rows), &mut held, 0).expect("an accepted sheet");
        for Pressed { key, room } in keys(&mut rng, 20) {
            match press(key, Ok(&rows), &mut held, room) {
                Ok(Answer { rows: next, .. }) => seen.extend(next),
                Err(_) => refused += 1,
            }
            if matches!(key, Key::Open | Key::Reset) {
                seen.clear();
            }
            assert_eq!(seen, rows[..seen.len()]);
            assert_eq!(held, [seen.len(), rows.len() - seen.len()].map(|count| count as u64));
        }
    }
    println!("refused calls: {refused}");
    assert!(refused > 10_000, "{refused}");
}

#[test]
fn a_wrong_number_counts_as_the_right_one_and_a_refused_call_hands_it_back() {
    let mut rng = Rng::new(2);
    let mut wrong = [0; 2];
    for rows in rolls() {
        for Pressed { key, room } in keys(&mut rng, 10) {
            let came = numbers(&mut rng, rows.len());
            let right = (rows.len() as u64).saturating_sub(came[0]);
            let (mut session, mut other) = (came, [came[0], right]);
            let answer = press(key, Ok(&rows), &mut session, room);
            assert_eq!(answer, press(key, Ok(&rows), &mut other, room));
            match answer {
                Ok(_) if key != Key::Running => assert_eq!(session, other),
                _ => assert_eq!((session, other), (came, [came[0], right])),
            }
            wrong[usize::from(answer.is_err())] += usize::from(came[1] != right);
        }
    }
    println!("wrong numbers handed in, to accepted and to refused calls: {wrong:?}");
    assert!(wrong.iter().all(|count| *count > 5000), "{wrong:?}");
}

/// A key on a session: what came, how many rows were not yet shown, and what is given and handed back.
struct Turn {
    key: Key,
    came: Session,
    left: u64,
    answer: Result<usize, Refusal>,
    session: Session,
}

impl Turn {
    fn new(rows: &[Row], came: Session, Pressed { key, room }: Pressed) -> Self {
        let mut numbers = [came.shown, came.running];
        let answer = press(key, Ok(rows), &mut numbers, room).map(|answer| answer.second);
        let [shown, running] = numbers;
        Turn { key, came, left: came.running(rows) as u64, answer, session: Session { shown, running } }
    }
}

/// Does a misreading show after one of the keys, in the answer or in the session?
fn shows(misread: fn(&mut Turn), rows: &[Row], begun: Session, keys: &[Pressed]) -> bool {
    let (mut right, mut wrong) = (begun, begun);
    keys.iter().any(|pressed| {
        let (expected, mut turn) = (Turn::new(rows, right, *pressed), Turn::new(rows, wrong, *pressed));
        misread(&mut turn);
        (right, wrong) = (expected.session, turn.session);
        (turn.answer, wrong) != (expected.answer, right)
    })
}

fn keep_at_opening(turn: &mut Turn) {
    if turn.key == Key::Open {
        turn.session.running = turn.came.running;
    }
}

fn keep_at_reset(turn: &mut Turn) {
    if turn.key == Key::Reset {
        turn.session.running = turn.came.running;
    }
}

fn count_down_by_n(turn: &mut Turn) {
    if let (Key::Advance(n), Ok(_)) = (turn.key, turn.answer) {
        turn.session.running = turn.left.wrapping_sub(n);
    }
}

fn count_down_though_refused(turn: &mut Turn) {
    if let (Key::Advance(n), Err(_)) = (turn.key, turn.answer) {
        turn.session.running = turn.left.saturating_sub(n);
    }
}

fn put_right_though_refused(turn: &mut Turn) {
    if turn.answer.is_err() {
        turn.session.running = turn.left;
    }
}

fn count_down_from_what_came(turn: &mut Turn) {
    if let (Key::Advance(_), Ok(rows)) = (turn.key, turn.answer) {
        turn.session.running = turn.came.running.wrapping_sub(rows as u64);
    }
}

fn answer_what_came(turn: &mut Turn) {
    if turn.key == Key::Running {
        turn.answer = Ok(turn.came.running as usize);
    }
}

/// The last three show only in sessions that are handed in with a wrong number.
#[test]
fn misreadings_are_found_out() {
    let from_opening = [keep_at_opening, keep_at_reset, count_down_by_n, count_down_though_refused];
    let handed_in = [put_right_though_refused, count_down_from_what_came, answer_what_came];
    let mut rng = Rng::new(3);
    let mut found = [[0; 2]; 7];
    for rows in rolls() {
        let [shown, running] = numbers(&mut rng, rows.len());
        let (begun, keys) = (Session { shown, running }, keys(&mut rng, 12));
        for (misread, found) in from_opening.iter().chain(&handed_in).zip(&mut found) {
            found[0] += usize::from(shows(*misread, &rows, Session::open(&rows), &keys));
            found[1] += usize::from(shows(*misread, &rows, begun, &keys));
        }
    }
    println!("sequences by which each is found out, from opening and handed in: {found:?}");
    assert!(found[..4].iter().all(|[opened, _]| *opened > 500), "{found:?}");
    assert!(found[4..].iter().all(|[opened, _]| *opened == 0), "{found:?}");
    assert!(found.iter().all(|[_, handed_in]| *handed_in > 500), "{found:?}");
}
