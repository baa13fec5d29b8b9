//! A trace: a track of the sheet with its row of the roll.

use crate::roll::Roll;
use crate::view::{place, Place};
use reference::cells::{cells_of, Cell};
use reference::fraction::Fraction;
use reference::roll::Row;
use reference::sheet::Track;

#[derive(Clone, Copy, Debug)]
pub struct Trace {
    pub track: Track,
    pub row: Row,
}

impl Trace {
    pub fn start(&self) -> Place {
        place(self.track.x, self.track.y)
    }

    /// The exact end; the row's end point is rounded.
    pub fn end(&self) -> Place {
        self.track.at(self.row.time)
    }

    /// Whether the tip opens after time 0.
    pub fn is_late(&self) -> bool {
        self.track.start_time > 0
    }

    /// The cells with a point of the trace, for illustration: their count is the program's.
    pub fn cells(&self, figure: u64) -> Vec<Cell> {
        cells_of(&self.track, self.row.time, figure)
    }

    /// Whether the row's time is not before the start and its end point is the rounded exact end.
    fn fits(&self) -> bool {
        let (x, y) = self.end();
        let not_before = self.row.time >= Fraction::whole(self.track.start_time);
        not_before && (x.in_64ths(), y.in_64ths()) == (self.row.x.into(), self.row.y.into())
    }
}

/// The traces in the order of the roll, or why the roll is not one of a sheet with these tracks.
pub fn traces(tracks: &[Track], roll: &Roll) -> Result<Vec<Trace>, String> {
    if tracks.len() != roll.rows.len() {
        return Err(format!("{} tracks in the sheet, {} rows", tracks.len(), roll.rows.len()));
    }
    roll.rows.iter().map(|row| trace(tracks, row)).collect()
}

fn trace(tracks: &[Track], row: &Row) -> Result<Trace, String> {
    let track = tracks.iter().find(|track| track.id == row.id);
    let track = *track.ok_or_else(|| format!("row of track {}: not in the sheet", row.id))?;
    let trace = Trace { track, row: *row };
    if !trace.fits() {
        return Err(format!("row of track {}: its end point is not at its time", row.id));
    }
    Ok(trace)
}
