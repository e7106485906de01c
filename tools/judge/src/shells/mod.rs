//! Shells for what the published files name but which is not among them.
//!
//! Only their shape matters: no call of the judge reaches the covariance code.

pub mod par;
pub mod refine;
pub mod uncertainty;

/// A corner as the detector hands it out.
#[derive(Clone, Debug)]
pub struct Corner {
    pub x: f32,
    pub y: f32,
    pub strength: f32,
    pub(crate) model: Option<uncertainty::CovarianceModel>,
    pub(crate) at_peak_fit: bool,
}

impl Corner {
    pub fn new(x: f32, y: f32, strength: f32) -> Self {
        let model = None;
        let at_peak_fit = false;
        Self {
            x,
            y,
            strength,
            model,
            at_peak_fit,
        }
    }
}

/// An owned map; the judge reads the borrowed view instead.
pub struct ResponseMap {
    pub data: Vec<f32>,
}

impl ResponseMap {
    pub fn new(_w: usize, _h: usize, data: Vec<f32>) -> Self {
        Self { data }
    }
}
