//! Doors to the published Rust: its own functions and fields, nothing added.

use crate::detect::radon::{detect, primitives, response};
use crate::frame::Frame;

pub use detect::opened::{floor, is_resolved, is_saddle};
pub use primitives::PeakFitMode;
pub use response::opened::{blur, map, rays, upsample, view, Map};
pub use response::{RadonBuffers, RadonDetectorParams, RadonResponseView};

/// A frame's settings in the original's record, unclamped.
pub fn params(frame: &Frame) -> RadonDetectorParams {
    RadonDetectorParams {
        ray_radius: frame.ray.into(),
        image_upsample: frame.upsampling.into(),
        response_blur_radius: frame.blur.into(),
        peak_fit: mode(frame.mode),
        threshold_rel: frame.fraction(),
        nms_radius: frame.suppression.into(),
        min_cluster_size: frame.least.into(),
    }
}

/// 0 parabolic, else Gaussian.
pub fn mode(byte: u8) -> PeakFitMode {
    if byte == 0 {
        PeakFitMode::Parabolic
    } else {
        PeakFitMode::Gaussian
    }
}

pub fn radon_response_u8<'a>(
    image: &[u8],
    w: usize,
    h: usize,
    params: &RadonDetectorParams,
    buffers: &'a mut RadonBuffers,
) -> RadonResponseView<'a> {
    response::radon_response_u8(image, w, h, params, buffers)
}

/// The list: x, y, strength of each corner.
pub fn detect_peaks_from_radon(
    view: &RadonResponseView<'_>,
    params: &RadonDetectorParams,
) -> Vec<[f32; 3]> {
    let corners = detect::detect_peaks_from_radon(view, params);
    corners
        .iter()
        .map(|corner| [corner.x, corner.y, corner.strength])
        .collect()
}

pub fn fit_peak_frac(below: f32, centre: f32, above: f32, mode: PeakFitMode) -> f32 {
    primitives::fit_peak_frac(below, centre, above, mode)
}

pub fn box_blur_inplace(map: &mut [f32], scratch: &mut [f32], w: usize, h: usize, radius: usize) {
    primitives::box_blur_inplace(map, scratch, w, h, radius)
}

pub fn is_local_max(
    data: &[f32],
    (w, h): (usize, usize),
    (x, y): (usize, usize),
    r: i32,
    v: f32,
) -> bool {
    crate::detect::is_local_max(data, w, h, x, y, r, v)
}

pub fn count_positive_neighbors(
    data: &[f32],
    (w, h): (usize, usize),
    (x, y): (usize, usize),
    r: i32,
) -> u32 {
    crate::detect::count_positive_neighbors(data, w, h, x, y, r)
}
