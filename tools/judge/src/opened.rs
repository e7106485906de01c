//! Stands behind the published text of `response.rs`, as a module within it: there its private fields can be read and
//! its private passes called. It changes neither.

use super::{
    box_blur_inplace, build_cumsums, compute_response, upsample_bilinear_2x_if_needed, Cumsums,
    RadonBuffers, RadonResponseView, SatElem,
};

/// What the buffers hold, as the last frame left it; the scratch is an older frame's where the map is not blurred.
#[derive(Clone, Copy, Debug)]
pub struct Map<'a> {
    pub w: usize,
    pub h: usize,
    pub working: &'a [u8],
    /// Along rows, down columns, falling, rising.
    pub tables: [&'a [SatElem]; 4],
    pub response: &'a [f32],
    pub scratch: &'a [f32],
}

pub fn map(buffers: &RadonBuffers) -> Map<'_> {
    Map {
        w: buffers.working_w,
        h: buffers.working_h,
        working: &buffers.working,
        tables: [
            &buffers.row_cumsum,
            &buffers.col_cumsum,
            &buffers.diag_pos_cumsum,
            &buffers.diag_neg_cumsum,
        ],
        response: &buffers.response,
        scratch: &buffers.blur_scratch,
    }
}

/// A view over any two slices.
pub fn view<'a>(data: &'a [f32], image: &'a [u8], w: usize, h: usize) -> RadonResponseView<'a> {
    RadonResponseView { data, image, w, h }
}

/// The passes of `radon_response_u8` one by one, as it calls them, over buffers that it has made long enough.
pub fn upsample(image: &[u8], w: usize, h: usize, up: u32, buffers: &mut RadonBuffers) {
    if up > 1 {
        upsample_bilinear_2x_if_needed(image, w, h, up, &mut buffers.working);
    } else {
        buffers.working.copy_from_slice(image);
    }
}

/// Four tables and the response.
pub fn rays(ray: usize, buffers: &mut RadonBuffers) {
    let (w, h) = (buffers.working_w, buffers.working_h);
    build_cumsums(
        &buffers.working,
        w,
        h,
        &mut buffers.row_cumsum,
        &mut buffers.col_cumsum,
        &mut buffers.diag_pos_cumsum,
        &mut buffers.diag_neg_cumsum,
    );
    let tables = Cumsums {
        row: &buffers.row_cumsum,
        col: &buffers.col_cumsum,
        diag_pos: &buffers.diag_pos_cumsum,
        diag_neg: &buffers.diag_neg_cumsum,
        w,
        h,
    };
    compute_response(&tables, ray, &mut buffers.response);
}

pub fn blur(radius: usize, buffers: &mut RadonBuffers) {
    let (w, h) = (buffers.working_w, buffers.working_h);
    box_blur_inplace(&mut buffers.response, &mut buffers.blur_scratch, w, h, radius);
}
