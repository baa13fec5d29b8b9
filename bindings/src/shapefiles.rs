//! The shapefiles of a sheet's roll: the traces, the end points, and an index file of each (SHEETS 12).

use crate::{c, write, Refusal};

// Room for the files of any sheet: a header of 100 bytes, and 256 records.
pub const LONGEST_TRACES_SHP: usize = 100 + 256 * 88;
pub const LONGEST_TRACES_SHX: usize = 100 + 256 * 8;
pub const LONGEST_ENDS_SHP: usize = 100 + 256 * 28;
pub const LONGEST_ENDS_SHX: usize = 100 + 256 * 8;

/// Writes the main file of the traces and gives its length: PolyLines in the roll's order, each from its track's start to its row's point,
/// or a null shape where the two are one point (SHEETS 12.5).
pub fn traces_shp(sheet: &[u8], out: &mut [u8]) -> Result<usize, Refusal> {
    write(c::fissure_traces_shp, sheet, out)
}

/// Writes the index file of the traces and gives its length (SHEETS 12.7).
pub fn traces_shx(sheet: &[u8], out: &mut [u8]) -> Result<usize, Refusal> {
    write(c::fissure_traces_shx, sheet, out)
}

/// Writes the main file of the end points and gives its length: Points in the roll's order (SHEETS 12.4).
pub fn ends_shp(sheet: &[u8], out: &mut [u8]) -> Result<usize, Refusal> {
    write(c::fissure_ends_shp, sheet, out)
}

/// Writes the index file of the end points and gives its length (SHEETS 12.7).
pub fn ends_shx(sheet: &[u8], out: &mut [u8]) -> Result<usize, Refusal> {
    write(c::fissure_ends_shx, sheet, out)
}

/// One of the four files.
#[derive(Clone, Copy, Debug)]
pub struct Shapefile {
    /// How program `shapes` ends its name (SHEETS 12.9).
    pub name: &'static str,
    pub write: fn(&[u8], &mut [u8]) -> Result<usize, Refusal>,
    pub longest: usize,
}

/// For whoever writes them all.
pub const SHAPEFILES: [Shapefile; 4] = [
    Shapefile { name: "traces.shp", write: traces_shp, longest: LONGEST_TRACES_SHP },
    Shapefile { name: "traces.shx", write: traces_shx, longest: LONGEST_TRACES_SHX },
    Shapefile { name: "ends.shp", write: ends_shp, longest: LONGEST_ENDS_SHP },
    Shapefile { name: "ends.shx", write: ends_shx, longest: LONGEST_ENDS_SHX },
];

impl Shapefile {
    /// The bytes of the file of a sheet.
    pub fn of(&self, sheet: &[u8]) -> Result<Vec<u8>, Refusal> {
        let mut bytes = vec![0; self.longest];
        let length = (self.write)(sheet, &mut bytes)?;
        bytes.truncate(length);
        Ok(bytes)
    }
}
