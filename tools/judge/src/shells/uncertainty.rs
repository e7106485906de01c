//! Shell for the original's uncertainty model: types only, no numbers.

use super::refine::PositionCovariance;
use crate::imageview::ImageView;

pub const EDGE_REACH: i32 = 0;
pub const ROUNDING_VAR: f32 = 0.0;

#[derive(Clone, Copy, Debug)]
pub struct CovarianceModel {
    pub noise: PositionCovariance,
    pub systematic: PositionCovariance,
    pub growth: [f32; 2],
}

pub struct Knot;

pub const fn knot(_width: f32, _gain: f32, _spread: f32) -> Knot {
    Knot
}

pub struct SystematicModel {
    pub knots: &'static [Knot],
    pub floor: f32,
}

impl SystematicModel {
    pub fn model(
        &self,
        noise: PositionCovariance,
        _offset: [f32; 2],
        _width: f32,
        _window: f32,
    ) -> CovarianceModel {
        CovarianceModel {
            noise,
            systematic: noise,
            growth: [0.0; 2],
        }
    }
}

pub fn gram(_grads: &[[f32; 2]]) -> Option<PositionCovariance> {
    None
}

#[derive(Debug, Default)]
pub struct PixelGradients;

impl PixelGradients {
    pub fn reset(&mut self, _low: [i32; 2], _side: usize) {}
    pub fn add(&mut self, _x: i32, _y: i32, _grad: [f32; 2]) {}
    pub fn covariance(&self) -> Option<PositionCovariance> {
        None
    }
}

#[derive(Debug, Default)]
pub struct PixelTile;

impl PixelTile {
    pub fn load(&mut self, _image: &ImageView<'_>, _centre: [i32; 2], _reach: i32) {}
    pub fn at(&self, _x: i32, _y: i32) -> f32 {
        0.0
    }
    pub fn bilinear(&self, _x: f32, _y: f32) -> f32 {
        0.0
    }
    pub fn edge_width(&self, _centre: [i32; 2]) -> f32 {
        0.0
    }
}
