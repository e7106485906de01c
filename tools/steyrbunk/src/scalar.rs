//! The root and the logarithm that the finder takes, by themselves. NaN stands for "outside".

use crate::raw;

/// The nearest f32 to the root of a finite number from +0 up.
#[inline]
pub fn sqrt(x: f32) -> f32 {
    // SAFETY: a number in, a number out.
    unsafe { raw::steyrbunk_sqrt(x) }
}

/// The logarithm of a number from 2^-6 to 2^24: within 2^-19 of document 01's L, whose sums go to n = 17 since
/// document 02's fourth request.
#[inline]
pub fn ln(x: f32) -> f32 {
    // SAFETY: as above.
    unsafe { raw::steyrbunk_ln(x) }
}
