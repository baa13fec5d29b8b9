//! Whole-number points and vectors of the plane.

use std::ops::{Add, Mul, Neg, Sub};

#[derive(Clone, Copy, Debug, PartialEq, Eq)]
pub struct Vector {
    pub x: i64,
    pub y: i64,
}

impl Vector {
    pub fn new(x: impl Into<i64>, y: impl Into<i64>) -> Self {
        Vector { x: x.into(), y: y.into() }
    }

    /// Zero exactly when the two are parallel.
    pub fn cross(self, other: Vector) -> i64 {
        self.x * other.y - self.y * other.x
    }

    pub fn dot(self, other: Vector) -> i64 {
        self.x * other.x + self.y * other.y
    }
}

impl Add for Vector {
    type Output = Vector;
    fn add(self, other: Vector) -> Vector {
        Vector { x: self.x + other.x, y: self.y + other.y }
    }
}

impl Sub for Vector {
    type Output = Vector;
    fn sub(self, other: Vector) -> Vector {
        Vector { x: self.x - other.x, y: self.y - other.y }
    }
}

impl Neg for Vector {
    type Output = Vector;
    fn neg(self) -> Vector {
        Vector { x: -self.x, y: -self.y }
    }
}

impl Mul<i64> for Vector {
    type Output = Vector;
    fn mul(self, factor: i64) -> Vector {
        Vector { x: self.x * factor, y: self.y * factor }
    }
}
