//! Stands behind the published text of `detect.rs`, as a module within it: there its private saddle test and floor can be
//! asked. It changes neither.

use super::{relative_floor, SaddleTest};

/// The floor of a map with this maximum.
pub fn floor(fraction: f32, maximum: f32) -> f32 {
    relative_floor(fraction, maximum)
}

/// Whether the saddle test of radius `k` accepts a place of an image so wide.
pub fn is_saddle(image: &[u8], w: usize, (x, y): (usize, usize), k: usize) -> bool {
    SaddleTest::new(k).accepts(image, w, x, y)
}

/// Whether that test takes the curvature as resolved. Its two comparisons are one answer; with a norm of 0 the trace is 0,
/// which passes the second whatever the spread.
pub fn is_resolved(image: &[u8], w: usize, (x, y): (usize, usize), k: usize) -> bool {
    let mut test = SaddleTest::new(k);
    test.inv_norms[0] = 0.0;
    test.accepts(image, w, x, y)
}
