//! Shell for the original's position covariance.

use std::ops::Add;

#[derive(Clone, Copy, Debug)]
pub struct PositionCovariance {
    pub xx: f32,
    pub yy: f32,
}

impl PositionCovariance {
    pub fn scaled(self, by: f32) -> Self {
        Self {
            xx: self.xx * by,
            yy: self.yy * by,
        }
    }
}

impl Add for PositionCovariance {
    type Output = Self;
    fn add(self, other: Self) -> Self {
        Self {
            xx: self.xx + other.xx,
            yy: self.yy + other.yy,
        }
    }
}
