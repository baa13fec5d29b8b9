//! Records handed in (SHEETS 2.8, 2.9), in room for 256 tracks and 256 walls, with the
//! numbers of those that count.

use crate::refusal::{Refusal, TOO_MANY};
use crate::sheet::{check, Records, Track, Wall, MAX_RECORDS};

const BLANK_TRACK: Track = Track { id: 0, x: 0, y: 0, vx: 0, vy: 0, start_time: 0 };
const BLANK_WALL: Wall = Wall { id: 0, ax: 0, ay: 0, bx: 0, by: 0 };

#[derive(Clone, Debug, PartialEq, Eq)]
pub struct HandedIn {
    /// How many tracks and walls there are said to be.
    pub ntracks: u64,
    pub nwalls: u64,
    /// What the first places hold; those behind are blank.
    pub listed: Records,
}

impl HandedIn {
    /// The listed records, all of them counted and no other.
    pub fn whole(listed: Records) -> Self {
        let (ntracks, nwalls) = (listed.tracks.len() as u64, listed.walls.len() as u64);
        HandedIn { ntracks, nwalls, listed }
    }

    /// The records that count, as far as there is room.
    fn counted(&self) -> Records {
        Records {
            tracks: first(&self.listed.tracks, BLANK_TRACK, self.ntracks),
            walls: first(&self.listed.walls, BLANK_WALL, self.nwalls),
        }
    }

    /// The records, or the refusal of the bytes that they stand for (SHEETS 2.8). What a count
    /// above 256 claims is refused as the 257th of its kind (SHEETS 2.9).
    pub fn check(&self) -> Result<Records, Refusal> {
        let records = self.counted();
        let Records { tracks, walls } = &records;
        let walls_at = tracks.iter().map(|track| track.command().length()).sum();
        check(tracks, &[])?;
        refuse_257th(self.ntracks, walls_at)?;
        check(tracks, walls)?;
        refuse_257th(self.nwalls, walls_at + MAX_RECORDS * Wall::LENGTH)?;
        Ok(records)
    }
}

fn first<T: Copy>(listed: &[T], blank: T, count: u64) -> Vec<T> {
    let count = usize::try_from(count).unwrap_or(usize::MAX);
    let room = listed.iter().copied().chain(std::iter::repeat(blank)).take(MAX_RECORDS);
    room.take(count).collect()
}

fn refuse_257th(count: u64, place: usize) -> Result<(), Refusal> {
    if count > MAX_RECORDS as u64 {
        return Err(Refusal { number: TOO_MANY, place });
    }
    Ok(())
}
