//! Records, the reader, the check of handed-in records and the writer (SHEETS 2, 3).

use crate::fraction::Fraction;
use crate::plane::Vector;
use crate::refusal::*;

pub const MAX_RECORDS: usize = 256;
pub const MAX_COORDINATE: u16 = 4095;
pub const MAX_SPEED: i8 = 63;
pub const MAX_START_TIME: u16 = 4095;

#[derive(Clone, Copy, Debug, PartialEq, Eq)]
pub struct Track {
    pub id: u16,
    pub x: u16,
    pub y: u16,
    pub vx: i8,
    pub vy: i8,
    pub start_time: u16,
}

#[derive(Clone, Copy, Debug, PartialEq, Eq)]
pub struct Wall {
    pub id: u16,
    pub ax: u16,
    pub ay: u16,
    pub bx: u16,
    pub by: u16,
}

/// A command as it is listed (SHEETS 2.1).
#[derive(Clone, Copy, Debug, PartialEq, Eq)]
pub enum Command {
    End,
    /// 01: the start time is 0.
    Track(Track),
    /// 03: the start time is given, be it 0.
    LateTrack(Track),
    Wall(Wall),
}

/// The records of a sheet, in the order in which it lists them (SHEETS 2.7).
#[derive(Clone, Debug, Default, PartialEq, Eq)]
pub struct Records {
    pub tracks: Vec<Track>,
    pub walls: Vec<Wall>,
}

impl Track {
    /// The lengths of 01 and of 03.
    pub const LENGTH: usize = 9;
    pub const LATE_LENGTH: usize = 11;

    pub fn start(&self) -> Vector {
        Vector::new(self.x, self.y)
    }

    pub fn speed(&self) -> Vector {
        Vector::new(self.vx, self.vy)
    }

    /// Where the tip is at a time not before its start time, if it has not ended (SHEETS 4.1).
    pub fn at(&self, time: Fraction) -> (Fraction, Fraction) {
        let age = time - Fraction::whole(self.start_time);
        let along = |start: u16, speed: i8| Fraction::whole(start) + Fraction::whole(speed) * age;
        (along(self.x, self.vx), along(self.y, self.vy))
    }

    /// The command of the ordered form and of handed-in records (SHEETS 2.6, 2.8): 03 only where 01 would not do.
    pub fn command(self) -> Command {
        if self.start_time == 0 {
            Command::Track(self)
        } else {
            Command::LateTrack(self)
        }
    }

    /// The operands of 03; those of 01 are the first eight.
    pub fn operands(self) -> [u8; Self::LATE_LENGTH - 1] {
        let [id0, id1] = self.id.to_le_bytes();
        let [x0, x1] = self.x.to_le_bytes();
        let [y0, y1] = self.y.to_le_bytes();
        let [vx] = self.vx.to_le_bytes();
        let [vy] = self.vy.to_le_bytes();
        let [start0, start1] = self.start_time.to_le_bytes();
        [id0, id1, x0, x1, y0, y1, vx, vy, start0, start1]
    }

    /// From the operands of 01.
    pub fn from_operands(b: &[u8; Self::LENGTH - 1]) -> Self {
        Track {
            id: u16::from_le_bytes([b[0], b[1]]),
            x: u16::from_le_bytes([b[2], b[3]]),
            y: u16::from_le_bytes([b[4], b[5]]),
            vx: i8::from_le_bytes([b[6]]),
            vy: i8::from_le_bytes([b[7]]),
            start_time: 0,
        }
    }

    /// From the operands of 03.
    pub fn from_late_operands(b: &[u8; Self::LATE_LENGTH - 1]) -> Self {
        let [id0, id1, x0, x1, y0, y1, vx, vy, start0, start1] = *b;
        let start_time = u16::from_le_bytes([start0, start1]);
        Track { start_time, ..Track::from_operands(&[id0, id1, x0, x1, y0, y1, vx, vy]) }
    }

    fn has_good_speed(&self) -> bool {
        let allowed = -MAX_SPEED..=MAX_SPEED;
        allowed.contains(&self.vx) && allowed.contains(&self.vy) && (self.vx, self.vy) != (0, 0)
    }
}

impl Wall {
    pub const LENGTH: usize = 11;

    pub fn a(&self) -> Vector {
        Vector::new(self.ax, self.ay)
    }

    pub fn b(&self) -> Vector {
        Vector::new(self.bx, self.by)
    }

    pub fn to_bytes(self) -> [u8; Self::LENGTH] {
        let [id0, id1] = self.id.to_le_bytes();
        let [ax0, ax1] = self.ax.to_le_bytes();
        let [ay0, ay1] = self.ay.to_le_bytes();
        let [bx0, bx1] = self.bx.to_le_bytes();
        let [by0, by1] = self.by.to_le_bytes();
        [2, id0, id1, ax0, ax1, ay0, ay1, bx0, bx1, by0, by1]
    }

    pub fn from_operands(b: &[u8; Self::LENGTH - 1]) -> Self {
        Wall {
            id: u16::from_le_bytes([b[0], b[1]]),
            ax: u16::from_le_bytes([b[2], b[3]]),
            ay: u16::from_le_bytes([b[4], b[5]]),
            bx: u16::from_le_bytes([b[6], b[7]]),
            by: u16::from_le_bytes([b[8], b[9]]),
        }
    }

    /// The point is on the wall (SHEETS 3.5): on its line, and in x and y between its ends.
    fn holds(&self, point: Vector) -> bool {
        let (to_a, to_b) = (self.a() - point, self.b() - point);
        to_a.cross(to_b) == 0 && to_a.dot(to_b) <= 0
    }
}

impl Command {
    fn parse(rest: &[u8]) -> Result<Command, u8> {
        let whole = match rest {
            [0, ..] => Some(Command::End),
            [1, operands @ ..] => operands.first_chunk().map(|it| Command::Track(Track::from_operands(it))),
            [2, operands @ ..] => operands.first_chunk().map(|it| Command::Wall(Wall::from_operands(it))),
            [3, operands @ ..] => operands.first_chunk().map(|it| Command::LateTrack(Track::from_late_operands(it))),
            [_, ..] => return Err(UNKNOWN_COMMAND),
            [] => None,
        };
        whole.ok_or(CUT_SHORT)
    }

    pub fn length(&self) -> usize {
        match self {
            Command::End => 1,
            Command::Track(_) => Track::LENGTH,
            Command::LateTrack(_) => Track::LATE_LENGTH,
            Command::Wall(_) => Wall::LENGTH,
        }
    }

    pub fn as_track(&self) -> Option<Track> {
        match self {
            Command::Track(track) | Command::LateTrack(track) => Some(*track),
            Command::End | Command::Wall(_) => None,
        }
    }

    fn append_to(&self, bytes: &mut Vec<u8>) {
        match self {
            Command::End => bytes.push(0),
            Command::Track(track) => {
                assert_eq!(track.start_time, 0, "01 has no start time");
                bytes.push(1);
                bytes.extend(&track.operands()[..Track::LENGTH - 1]);
            }
            Command::LateTrack(track) => {
                bytes.push(3);
                bytes.extend(track.operands());
            }
            Command::Wall(wall) => bytes.extend(wall.to_bytes()),
        }
    }
}

impl Records {
    /// The records of the commands, whether or not a sheet may hold them.
    pub fn of(commands: &[Command]) -> Self {
        let mut records = Records::default();
        for command in commands {
            match *command {
                Command::End => {}
                Command::Track(track) | Command::LateTrack(track) => records.tracks.push(track),
                Command::Wall(wall) => records.walls.push(wall),
            }
        }
        records
    }

    /// Takes the command in, or gives the first of 7, 4, 5, 6, 8, 9, 10 that it breaks.
    pub fn admit(&mut self, command: Command) -> Result<(), u8> {
        match command {
            Command::End => {}
            Command::Track(track) | Command::LateTrack(track) => {
                self.test_track(&track)?;
                self.tracks.push(track);
            }
            Command::Wall(wall) => {
                self.test_wall(&wall)?;
                self.walls.push(wall);
            }
        }
        Ok(())
    }

    fn test_track(&self, new: &Track) -> Result<(), u8> {
        let start = new.start();
        refuse_if(TOO_MANY, self.tracks.len() == MAX_RECORDS)?;
        refuse_if(COORDINATE, new.x.max(new.y) > MAX_COORDINATE || new.start_time > MAX_START_TIME)?;
        refuse_if(SPEED, !new.has_good_speed())?;
        refuse_if(ID_USED, self.tracks.iter().any(|old| old.id == new.id))?;
        refuse_if(START_USED, self.tracks.iter().any(|old| old.start() == start))?;
        refuse_if(START_ON_WALL, self.walls.iter().any(|wall| wall.holds(start)))
    }

    fn test_wall(&self, new: &Wall) -> Result<(), u8> {
        let furthest = new.ax.max(new.ay).max(new.bx).max(new.by);
        refuse_if(TOO_MANY, self.walls.len() == MAX_RECORDS)?;
        refuse_if(COORDINATE, furthest > MAX_COORDINATE)?;
        refuse_if(EQUAL_ENDS, new.a() == new.b())?;
        refuse_if(ID_USED, self.walls.iter().any(|old| old.id == new.id))?;
        refuse_if(START_ON_WALL, self.tracks.iter().any(|track| new.holds(track.start())))
    }
}

fn refuse_if(number: u8, broken: bool) -> Result<(), u8> {
    if broken {
        Err(number)
    } else {
        Ok(())
    }
}

/// Goes from command to command up to the end, for as long as `take` refuses none.
fn scan(bytes: &[u8], mut take: impl FnMut(Command) -> Result<(), u8>) -> Result<(), Refusal> {
    let mut place = 0;
    loop {
        let refused = |number| Refusal { number, place };
        let command = Command::parse(&bytes[place..]).map_err(refused)?;
        take(command).map_err(refused)?;
        place += command.length();
        if command == Command::End {
            break;
        }
    }
    if place < bytes.len() {
        return Err(Refusal { number: AFTER_END, place });
    }
    Ok(())
}

/// Reads a sheet, or gives its refusal (SHEETS 3.3).
pub fn read(bytes: &[u8]) -> Result<Records, Refusal> {
    let mut records = Records::default();
    scan(bytes, |command| records.admit(command))?;
    Ok(records)
}

/// The commands before the end, whether or not a sheet may hold them; 1, 2 or 3 where they are not whole commands with
/// one 00 behind them.
pub fn whole_commands(bytes: &[u8]) -> Result<Vec<Command>, Refusal> {
    let mut commands = Vec::new();
    scan(bytes, |command| {
        commands.extend((command != Command::End).then_some(command));
        Ok(())
    })?;
    Ok(commands)
}

/// Handed-in records as commands, tracks before walls, without the final 00.
pub fn commands<'a>(tracks: &'a [Track], walls: &'a [Wall]) -> impl Iterator<Item = Command> + 'a {
    let tracks = tracks.iter().copied().map(Track::command);
    tracks.chain(walls.iter().copied().map(Command::Wall))
}

/// The commands' bytes, followed by 00 (SHEETS 2.1, 2.2).
pub fn listing(commands: impl IntoIterator<Item = Command>) -> Vec<u8> {
    let mut bytes = Vec::new();
    for command in commands {
        command.append_to(&mut bytes);
    }
    Command::End.append_to(&mut bytes);
    bytes
}

/// Judges handed-in records as the bytes that they stand for (SHEETS 2.8).
pub fn check(tracks: &[Track], walls: &[Wall]) -> Result<(), Refusal> {
    let mut records = Records::default();
    let mut place = 0;
    for command in commands(tracks, walls) {
        records.admit(command).map_err(|number| Refusal { number, place })?;
        place += command.length();
    }
    Ok(())
}

/// The ordered form (SHEETS 2.6).
pub fn ordered_form(tracks: &[Track], walls: &[Wall]) -> Vec<u8> {
    let (mut tracks, mut walls) = (tracks.to_vec(), walls.to_vec());
    tracks.sort_by_key(|track| track.id);
    walls.sort_by_key(|wall| wall.id);
    listing(commands(&tracks, &walls))
}

/// Writes the ordered form to the front of `out` and gives its length, or 12 (SHEETS 3.9, 3.10).
pub fn write(tracks: &[Track], walls: &[Wall], out: &mut [u8]) -> Result<usize, Refusal> {
    check(tracks, walls)?;
    let bytes = ordered_form(tracks, walls);
    let length = bytes.len();
    let too_short = Refusal { number: OUTPUT_TOO_SHORT, place: length };
    out.get_mut(..length).ok_or(too_short)?.copy_from_slice(&bytes);
    Ok(length)
}
