//! Fractions as decimals.

use reference::fraction::Fraction;

pub trait Decimals {
    /// This many hundredths, rounded down.
    fn in_hundredths(self) -> i64;

    /// A length or place in units of the sheet, to six decimals.
    fn units(self) -> String;

    /// A length or place in pixels, to two decimals.
    fn pixels(self) -> String;
}

impl Decimals for Fraction {
    fn in_hundredths(self) -> i64 {
        (Fraction::whole(100) * self).floor() as i64
    }

    fn units(self) -> String {
        decimal(self, 6)
    }

    fn pixels(self) -> String {
        decimal(self, 2)
    }
}

/// The value rounded to this many decimals, without zeros at the end.
fn decimal(value: Fraction, places: usize) -> String {
    let ten = (0..places).fold(1, |power, _| 10 * power);
    let parts = (Fraction::whole(ten) * value + Fraction::new(1, 2)).floor();
    let sign = if parts < 0 { "-" } else { "" };
    let (whole, part) = (parts.abs() / ten, parts.abs() % ten);
    let text = format!("{sign}{whole}.{part:0places$}");
    text.trim_end_matches('0').trim_end_matches('.').to_string()
}
