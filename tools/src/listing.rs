//! The listing: a command a line, `#` before a comment. The end command has no line. A track is one by 03 where it has a
//! start, be it 0, else one by 01.
//!
//! ```text
//! track 1 at 100 100 speed 10 0
//! track 2 at 200 50 speed 0 10 start 30
//! wall 1 from 250 50 to 350 50
//! ```

use reference::sheet::{Command, Track, Wall};

/// The commands of a listing, or what is wrong and in which line.
pub fn parse(listing: &[u8]) -> Result<Vec<Command>, String> {
    let mut commands = Vec::new();
    for (index, line) in listing.split(|&byte| byte == b'\n').enumerate() {
        let command = parse_line(line).map_err(|wrong| format!("line {}: {wrong}", index + 1))?;
        commands.extend(command);
    }
    Ok(commands)
}

/// The command of one line; none where it is blank or a comment.
fn parse_line(line: &[u8]) -> Result<Option<Command>, String> {
    let text = std::str::from_utf8(line).map_err(|_| "not UTF-8")?;
    let code = text.split('#').next().unwrap_or("");
    let words: Vec<&str> = code.split_whitespace().collect();
    match words[..] {
        [] => Ok(None),
        ["track", id, "at", x, y, "speed", vx, vy] => Ok(Some(Command::Track(track(id, [x, y], [vx, vy])?))),
        ["track", id, "at", x, y, "speed", vx, vy, "start", start] => {
            let track = track(id, [x, y], [vx, vy])?;
            Ok(Some(Command::LateTrack(Track { start_time: unsigned("start", start)?, ..track })))
        }
        ["wall", id, "from", ax, ay, "to", bx, by] => Ok(Some(Command::Wall(Wall {
            id: unsigned("id", id)?,
            ax: unsigned("ax", ax)?,
            ay: unsigned("ay", ay)?,
            bx: unsigned("bx", bx)?,
            by: unsigned("by", by)?,
        }))),
        ["track", ..] => Err("a track is written: track ID at X Y speed VX VY [start TIME]".into()),
        ["wall", ..] => Err("a wall is written: wall ID from AX AY to BX BY".into()),
        [first, ..] => Err(format!("'{first}' is neither track nor wall")),
    }
}

fn track(id: &str, [x, y]: [&str; 2], [vx, vy]: [&str; 2]) -> Result<Track, String> {
    Ok(Track {
        id: unsigned("id", id)?,
        x: unsigned("x", x)?,
        y: unsigned("y", y)?,
        vx: signed("vx", vx)?,
        vy: signed("vy", vy)?,
        start_time: 0,
    })
}

/// A number of 16 bits.
fn unsigned(name: &str, word: &str) -> Result<u16, String> {
    number(name, word, "0 to 65535")
}

/// A number of 8 bits, two's complement.
fn signed(name: &str, word: &str) -> Result<i8, String> {
    number(name, word, "-128 to 127")
}

/// A decimal number that fits the field's width.
fn number<T: TryFrom<i64>>(name: &str, word: &str, range: &str) -> Result<T, String> {
    let digits = word.strip_prefix('-').unwrap_or(word);
    if digits.is_empty() || !digits.bytes().all(|byte| byte.is_ascii_digit()) {
        return Err(format!("{name}: '{word}' is not a decimal number"));
    }
    let fits = word.parse::<i64>().ok().and_then(|value| T::try_from(value).ok());
    fits.ok_or_else(|| format!("{name}: {word} is not in {range}"))
}

/// The listing of commands, a line each, in their order.
pub fn print(commands: &[Command]) -> String {
    commands.iter().map(print_line).collect()
}

fn print_line(command: &Command) -> String {
    match command {
        Command::End => String::new(),
        Command::Track(track) => format!("{}\n", print_track(track)),
        Command::LateTrack(track) => format!("{} start {}\n", print_track(track), track.start_time),
        Command::Wall(Wall { id, ax, ay, bx, by }) => {
            format!("wall {id} from {ax} {ay} to {bx} {by}\n")
        }
    }
}

fn print_track(Track { id, x, y, vx, vy, .. }: &Track) -> String {
    format!("track {id} at {x} {y} speed {vx} {vy}")
}
