//! Exact fractions, compared by cross-multiplication (SHEETS 1.3).

use std::cmp::Ordering;
use std::ops::{Add, Mul, Neg, Sub};

#[derive(Clone, Copy, Debug)]
pub struct Fraction {
    numerator: i128,
    /// Above 0. The two may have a common factor; `lowest` takes it out.
    denominator: i128,
}

impl Fraction {
    pub const ZERO: Fraction = Fraction { numerator: 0, denominator: 1 };
    pub const HALF: Fraction = Fraction { numerator: 1, denominator: 2 };
    pub const ONE: Fraction = Fraction { numerator: 1, denominator: 1 };

    pub fn new(numerator: impl Into<i128>, denominator: impl Into<i128>) -> Self {
        let (numerator, denominator) = (numerator.into(), denominator.into());
        assert_ne!(denominator, 0, "a fraction's denominator");
        let sign = denominator.signum();
        Fraction { numerator: numerator * sign, denominator: denominator * sign }
    }

    pub fn whole(number: impl Into<i128>) -> Self {
        Fraction::new(number, 1)
    }

    /// Numerator and denominator in lowest terms; zero is 0/1 (SHEETS 5.3).
    pub fn lowest(self) -> (i128, i128) {
        let factor = common_factor(self.numerator.abs(), self.denominator);
        (self.numerator / factor, self.denominator / factor)
    }

    /// The same fraction in lowest terms.
    pub fn reduced(self) -> Self {
        let (numerator, denominator) = self.lowest();
        Fraction { numerator, denominator }
    }

    pub fn floor(self) -> i128 {
        self.numerator.div_euclid(self.denominator)
    }

    /// The nearest whole number; halfway between two, the even one.
    pub fn nearest(self) -> i128 {
        let below = self.floor();
        match (self - Fraction::whole(below)).cmp(&Fraction::HALF) {
            Ordering::Less => below,
            Ordering::Equal => below + below.rem_euclid(2),
            Ordering::Greater => below + 1,
        }
    }

    /// This many 64ths, rounded (SHEETS 5.4).
    pub fn in_64ths(self) -> i128 {
        (Fraction::whole(64) * self).nearest()
    }

    /// `self` / `other`, where `other` is not 0.
    pub fn over(self, other: Fraction) -> Fraction {
        Fraction::new(self.numerator * other.denominator, self.denominator * other.numerator)
    }
}

fn common_factor(a: i128, b: i128) -> i128 {
    if b == 0 {
        a
    } else {
        common_factor(b, a % b)
    }
}

impl PartialEq for Fraction {
    fn eq(&self, other: &Fraction) -> bool {
        self.cmp(other) == Ordering::Equal
    }
}

impl Eq for Fraction {}

impl PartialOrd for Fraction {
    fn partial_cmp(&self, other: &Fraction) -> Option<Ordering> {
        Some(self.cmp(other))
    }
}

impl Ord for Fraction {
    fn cmp(&self, other: &Fraction) -> Ordering {
        (self.numerator * other.denominator).cmp(&(other.numerator * self.denominator))
    }
}

impl Add for Fraction {
    type Output = Fraction;
    fn add(self, other: Fraction) -> Fraction {
        let numerator = self.numerator * other.denominator + other.numerator * self.denominator;
        Fraction { numerator, denominator: self.denominator * other.denominator }
    }
}

impl Neg for Fraction {
    type Output = Fraction;
    fn neg(self) -> Fraction {
        Fraction { numerator: -self.numerator, ..self }
    }
}

impl Sub for Fraction {
    type Output = Fraction;
    fn sub(self, other: Fraction) -> Fraction {
        self + -other
    }
}

impl Mul for Fraction {
    type Output = Fraction;
    fn mul(self, other: Fraction) -> Fraction {
        Fraction { numerator: self.numerator * other.numerator, denominator: self.denominator * other.denominator }
    }
}
