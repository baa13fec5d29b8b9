//! Many questions in one stream. A frame is its kind in one byte, the length of the rest in two
//! and the rest; every number has its low byte first.
//!
//! - Kind 0: a sheet's bytes.
//! - Kind 1, records handed in: the numbers of tracks and of walls (64 bits each), how many tracks
//!   are listed (16), the listed tracks as operands of 03 (10 bytes each, the start time last, be it
//!   0), the operands of the listed walls (10 bytes each).
//! - Kind 2, a lookup: the kind of ending (8 bits), the partner's id (16), the length of the track
//!   list (16), the track list, the wall list.

use crate::handed_in::HandedIn;
use crate::names::Lookup;
use crate::sheet::{read, Records, Track, Wall};
use crate::{chosen, made_up};
use std::io::{self, Read, Write};

pub enum Frame {
    Sheet(Vec<u8>),
    Records(HandedIn),
    Lookup(Lookup),
}

impl Frame {
    fn kind(&self) -> u8 {
        match self {
            Frame::Sheet(_) => 0,
            Frame::Records(_) => 1,
            Frame::Lookup(_) => 2,
        }
    }

    fn rest(&self) -> Vec<u8> {
        match self {
            Frame::Sheet(sheet) => sheet.clone(),
            Frame::Records(handed_in) => records_bytes(handed_in),
            Frame::Lookup(lookup) => lookup_bytes(lookup),
        }
    }

    fn parse(kind: u8, rest: &[u8]) -> Option<Frame> {
        match kind {
            0 => Some(Frame::Sheet(rest.to_vec())),
            1 => parse_records(rest).map(Frame::Records),
            2 => parse_lookup(rest).map(Frame::Lookup),
            _ => None,
        }
    }
}

fn records_bytes(handed_in: &HandedIn) -> Vec<u8> {
    let HandedIn { ntracks, nwalls, listed } = handed_in;
    let mut bytes = [ntracks.to_le_bytes(), nwalls.to_le_bytes()].concat();
    bytes.extend((listed.tracks.len() as u16).to_le_bytes());
    bytes.extend(listed.tracks.iter().flat_map(|track| track.operands()));
    bytes.extend(listed.walls.iter().flat_map(|wall| wall.to_bytes().into_iter().skip(1)));
    bytes
}

fn parse_records(bytes: &[u8]) -> Option<HandedIn> {
    let (ntracks, bytes) = bytes.split_first_chunk()?;
    let (nwalls, bytes) = bytes.split_first_chunk()?;
    let (count, bytes) = bytes.split_first_chunk()?;
    let (tracks, walls) = split_at(bytes, (Track::LATE_LENGTH - 1) * length(count))?;
    let tracks = tracks.chunks(Track::LATE_LENGTH - 1).map(|track| track.first_chunk());
    let walls = walls.chunks(Wall::LENGTH - 1).map(|wall| wall.first_chunk());
    Some(HandedIn {
        ntracks: u64::from_le_bytes(*ntracks),
        nwalls: u64::from_le_bytes(*nwalls),
        listed: Records {
            tracks: tracks.map(|track| track.map(Track::from_late_operands)).collect::<Option<_>>()?,
            walls: walls.map(|wall| wall.map(Wall::from_operands)).collect::<Option<_>>()?,
        },
    })
}

fn lookup_bytes(lookup: &Lookup) -> Vec<u8> {
    let Lookup { kind, partner, tracks, walls } = lookup;
    let length = tracks.len() as u16;
    [&[*kind], &partner.to_le_bytes()[..], &length.to_le_bytes(), tracks, walls].concat()
}

fn parse_lookup(bytes: &[u8]) -> Option<Lookup> {
    let ([kind, low, high], bytes) = bytes.split_first_chunk()?;
    let (count, bytes) = bytes.split_first_chunk()?;
    let (tracks, walls) = split_at(bytes, length(count))?;
    let partner = u16::from_le_bytes([*low, *high]);
    Some(Lookup { kind: *kind, partner, tracks: tracks.to_vec(), walls: walls.to_vec() })
}

fn length(bytes: &[u8; 2]) -> usize {
    u16::from_le_bytes(*bytes).into()
}

fn split_at(bytes: &[u8], at: usize) -> Option<(&[u8], &[u8])> {
    Some((bytes.get(..at)?, bytes.get(at..)?))
}

pub fn write_frame(out: &mut impl Write, frame: &Frame) -> io::Result<()> {
    let rest = frame.rest();
    let length = u16::try_from(rest.len()).map_err(io::Error::other)?;
    out.write_all(&[frame.kind()])?;
    out.write_all(&length.to_le_bytes())?;
    out.write_all(&rest)
}

/// All frames of the stream; one that is cut short or of an unknown kind is an error.
pub fn read_frames(input: &mut impl Read) -> io::Result<Vec<Frame>> {
    let mut bytes = Vec::new();
    input.read_to_end(&mut bytes)?;
    let mut bytes = bytes.as_slice();
    let mut frames = Vec::new();
    while !bytes.is_empty() {
        let mut head = [0; 3];
        bytes.read_exact(&mut head)?;
        let [kind, low, high] = head;
        let mut rest = vec![0; length(&[low, high])];
        bytes.read_exact(&mut rest)?;
        let frame = Frame::parse(kind, &rest);
        frames.push(frame.ok_or_else(|| io::Error::other("not a frame"))?);
    }
    Ok(frames)
}

/// The sheets, records and lookups that the proved program is asked. Sheets with start times come after the others, those
/// for the shapefiles after both, then those for the sides, those in which tips face, and last those with halves, so that
/// what stands before them does not depend on them. The made-up ones with facing tips are many, and are not listed in
/// another order as well.
pub fn all(seed: u64) -> Vec<Frame> {
    let at_once = [chosen::without_start_times(), made_up::without_start_times(seed)].concat();
    let late = [chosen::late::sheets(), made_up::late::all(seed)].concat();
    let shapes = [chosen::shapes::sheets(), made_up::shapes::all(seed)].concat();
    let sides = [chosen::sides::sheets(), made_up::sides::all(seed)].concat();
    let facing = chosen::facing::sheets();
    let sheets = [at_once, late, shapes, sides, facing].map(|sheets| made_up::with_other_orders(seed, sheets));
    let halves = [chosen::halves::sheets(), made_up::halves::all(seed)].concat();
    let halves = made_up::with_other_orders(seed, halves);
    let sheets = [sheets.concat(), made_up::facing::all(seed), halves].concat();
    let records = [chosen::handed_in::all(), made_up::handed_in::all(seed)].concat();
    let lookups = [chosen::names::all(), made_up::names::all(seed)].concat();
    let sheets = sheets.into_iter().map(Frame::Sheet);
    let records = records.into_iter().map(Frame::Records);
    sheets.chain(records).chain(lookups.into_iter().map(Frame::Lookup)).collect()
}

/// The records of those sheets and lists that are accepted.
pub fn accepted(seed: u64) -> impl Iterator<Item = Records> {
    all(seed).into_iter().filter_map(|frame| match frame {
        Frame::Sheet(sheet) => read(&sheet).ok(),
        Frame::Records(handed_in) => handed_in.check().ok(),
        Frame::Lookup(_) => None,
    })
}
