//! All cameras of an arch at once: their frame files end to end, and a share of the list for each.
//!
//! [`Finder::arch`](crate::Finder::arch) owns what it gives; [`lent::arch`](crate::lent::arch) is beneath it.

use std::iter;
use std::ops::Range;

use crate::frame::{stated_length, LEAD};

/// Cameras that an arch has at least.
pub const FEWEST: usize = 2;
/// And at most.
pub const MOST: usize = 8;

/// Frame files end to end. A file that does not have the length it states shifts where the later ones begin.
pub fn join(files: &[impl AsRef<[u8]>]) -> Vec<u8> {
    let files: Vec<&[u8]> = files.iter().map(AsRef::as_ref).collect();
    files.concat()
}

/// The files at the beginning of `frames` that lie whole in it, each as long as it states.
pub fn whole(frames: &[u8]) -> impl Iterator<Item = &[u8]> {
    let mut rest = frames;
    iter::from_fn(move || {
        let length = stated_length(rest.first_chunk::<LEAD>()?);
        let (file, behind) = rest.split_at_checked(length.try_into().ok()?)?;
        rest = behind;
        Some(file)
    })
}

/// Where camera `i` of so many, at least one, has its share in a list of so many numbers: whole corners, as many for
/// each, and what is left over is behind them all.
pub fn share(list: usize, cameras: usize, i: usize) -> Range<usize> {
    let size = list / 3 / cameras * 3;
    i * size..(i + 1) * size
}
