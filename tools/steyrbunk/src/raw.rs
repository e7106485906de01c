//! The C interface of the static libraries, argument for argument as in `include/steyrbunk.h` and, for the verdict on one pixel, in
//! `include/steyrbunk_verdict.h`. An entry that tells more than it did has a new name there, so that what was built for the old one does
//! not link.

/// An entry that takes the buffers; what else it takes stands before them and behind.
macro_rules! entry {
    ($name:ident($($before:ident: $read:ty),*; $($behind:ident: $told:ty),*)) => {
        extern "C" {
            pub fn $name(
                $($before: $read,)*
                working: *mut u8,
                working_len: usize,
                row_cumsum: *mut u32,
                row_cumsum_len: usize,
                col_cumsum: *mut u32,
                col_cumsum_len: usize,
                diag_pos_cumsum: *mut u32,
                diag_pos_cumsum_len: usize,
                diag_neg_cumsum: *mut u32,
                diag_neg_cumsum_len: usize,
                response: *mut f32,
                response_len: usize,
                blur_scratch: *mut f32,
                blur_scratch_len: usize,
                $($behind: $told),*
            ) -> u32;
        }
    };
}

/// One that takes an image; the settings that only the list uses stand between it and the buffers.
macro_rules! image_entry {
    ($name:ident($($between:ident: $setting:ty),*; $($behind:ident: $told:ty),*)) => {
        entry!($name(
            image: *const u8, image_len: usize, width: usize, height: usize,
            ray_radius: u32, image_upsample: u32, response_blur_radius: u32 $(, $between: $setting)*;
            $($behind: $told),*));
    };
}

// Six verdicts are told, here and below.
image_entry!(steyrbunk_corners(
    peak_fit: u32, threshold_rel: f32, nms_radius: u32, min_cluster_size: u32;
    list: *mut f32, list_len: usize, count: *mut usize, w: *mut usize, h: *mut usize, verdicts: *mut usize));

image_entry!(steyrbunk_response(; w: *mut usize, h: *mut usize));

/// What a camera of an arch is told.
#[derive(Clone, Copy)]
#[repr(C)]
pub struct Camera {
    pub answer: usize,
    pub count: usize,
    pub w: usize,
    pub h: usize,
    pub verdicts: [usize; 6],
}

// Eight cameras are told, however many there are.
entry!(steyrbunk_run_arch(
    cameras: usize, frames: *const u8, frames_len: usize;
    list: *mut f32, list_len: usize, told: *mut Camera));

extern "C" {
    pub fn steyrbunk_detect_peaks(
        response: *const f32,
        response_len: usize,
        image: *const u8,
        image_len: usize,
        w: usize,
        h: usize,
        ray_radius: u32,
        image_upsample: u32,
        response_blur_radius: u32,
        peak_fit: u32,
        threshold_rel: f32,
        nms_radius: u32,
        min_cluster_size: u32,
        list: *mut f32,
        list_len: usize,
        count: *mut usize,
        verdicts: *mut usize,
    ) -> u32;

    pub fn steyrbunk_verdict(
        response: *const f32,
        response_len: usize,
        image: *const u8,
        image_len: usize,
        w: usize,
        h: usize,
        ray_radius: u32,
        nms_radius: u32,
        min_cluster_size: u32,
        floor: f32,
        x: usize,
        y: usize,
    ) -> u32;

    pub fn steyrbunk_write_record(
        w: u16,
        h: u16,
        list: *const f32,
        list_len: usize,
        out: *mut u8,
        out_len: usize,
        count: *mut usize,
        ww: *mut usize,
        wh: *mut usize,
    ) -> u32;

    pub fn steyrbunk_read_record(
        record: *const u8,
        record_len: usize,
        list: *mut f32,
        list_len: usize,
        count: *mut usize,
        w: *mut usize,
        h: *mut usize,
    ) -> u32;

    pub fn steyrbunk_sqrt(x: f32) -> f32;

    pub fn steyrbunk_ln(x: f32) -> f32;
}
