//! How a coordinate is rounded, as a relation (SHEETS 5.4).

use reference::fraction::Fraction;

/// At most a half away, and even where it is a half.
pub fn is_nearest(rounded: i128, exact: Fraction) -> bool {
    let off = exact - Fraction::whole(rounded);
    let off = off.max(-off);
    off < Fraction::HALF || off == Fraction::HALF && rounded % 2 == 0
}
