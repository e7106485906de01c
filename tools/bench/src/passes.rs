//! Our single passes, from the library that `tools/passes` builds. Each is total: sizes that do not fit change nothing.

use steyrbunk::lent::Buffers;
use steyrbunk::{Image, Settings};

#[link(name = "passes", kind = "static")]
extern "C" {
    fn pass_upsample(
        image: *const u8,
        image_len: usize,
        width: usize,
        height: usize,
        factor: u32,
        working: *mut u8,
        working_len: usize,
    );
    fn pass_rays(
        working: *const u8,
        working_len: usize,
        w: usize,
        h: usize,
        ray: usize,
        row: *mut u32,
        row_len: usize,
        col: *mut u32,
        col_len: usize,
        falling: *mut u32,
        falling_len: usize,
        rising: *mut u32,
        rising_len: usize,
        response: *mut f32,
        response_len: usize,
    );
    fn pass_blur(
        response: *mut f32,
        response_len: usize,
        scratch: *mut f32,
        scratch_len: usize,
        w: usize,
        h: usize,
        radius: usize,
    );
}

// SAFETY of each call: each pointer comes with the length of the slice it was taken from, the slices that are written
// are borrowed exclusively, and the passes touch nothing beyond them.

pub fn upsample(image: Image, settings: &Settings, lent: Buffers) {
    unsafe {
        pass_upsample(
            image.pixels.as_ptr(),
            image.pixels.len(),
            image.width,
            image.height,
            settings.image_upsample,
            lent.working.as_mut_ptr(),
            lent.working.len(),
        )
    }
}

pub fn rays((w, h): (usize, usize), settings: &Settings, lent: Buffers) {
    unsafe {
        pass_rays(
            lent.working.as_ptr(),
            lent.working.len(),
            w,
            h,
            settings.ray_radius as usize,
            lent.row_cumsum.as_mut_ptr(),
            lent.row_cumsum.len(),
            lent.col_cumsum.as_mut_ptr(),
            lent.col_cumsum.len(),
            lent.diag_pos_cumsum.as_mut_ptr(),
            lent.diag_pos_cumsum.len(),
            lent.diag_neg_cumsum.as_mut_ptr(),
            lent.diag_neg_cumsum.len(),
            lent.response.as_mut_ptr(),
            lent.response.len(),
        )
    }
}

pub fn blur((w, h): (usize, usize), settings: &Settings, lent: Buffers) {
    unsafe {
        pass_blur(
            lent.response.as_mut_ptr(),
            lent.response.len(),
            lent.blur_scratch.as_mut_ptr(),
            lent.blur_scratch.len(),
            w,
            h,
            settings.response_blur_radius as usize,
        )
    }
}
