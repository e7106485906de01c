//! A blurred map held to the whole numbers behind it, every pixel.

use std::fmt;

use crate::share::Share;
use crate::whole::Whole;
use crate::window::Window;

/// What a pixel of the map has, and what it stands for.
#[derive(Clone, Copy, Debug, PartialEq)]
pub struct Pixel {
    pub x: usize,
    pub y: usize,
    pub value: f32,
    pub count: usize,
    pub sum: u64,
}

impl fmt::Display for Pixel {
    fn fmt(&self, out: &mut fmt::Formatter<'_>) -> fmt::Result {
        let Pixel {
            x, y, count, sum, ..
        } = self;
        let bits = self.value.to_bits();
        write!(out, "pixel ({x}, {y}), v {bits:#010x}, N {count}, E {sum}")
    }
}

/// Most roundings on the way to a pixel, and one.
pub const ROUNDINGS: usize = 2 * (2 * limits::BLUR as usize + 1) + 2;

/// What was found of a map.
#[derive(Clone, Debug, Default)]
pub struct Tally {
    pub pixels: u64,
    /// Those that stand for more than 0.
    pub standing: u64,
    pub worst: Option<(Share, Pixel)>,
    /// The shares of those that stand for more than 0, added up: for printing alone.
    pub shares: f64,
    /// The worst shares by how many roundings led to the pixel.
    pub by_roundings: [Option<Share>; ROUNDINGS],
    /// Pixels that lie further off than is allowed, and the first of them.
    pub broken: u64,
    pub first_broken: Option<Pixel>,
}

impl Tally {
    /// What is told of a map with pixels past the bound.
    pub fn complaint(&self) -> Option<String> {
        let (broken, pixel) = (self.broken, self.first_broken?);
        Some(format!("{broken} PAST THE BOUND, the first at {pixel}"))
    }

    fn add(&mut self, pixel: Pixel, share: Option<Share>, roundings: usize) {
        self.pixels += 1;
        self.standing += u64::from(pixel.sum > 0);
        let Some(share) = share else {
            self.broken += 1;
            self.first_broken.get_or_insert(pixel);
            return;
        };
        self.shares += f64::from(share);
        if self.worst.is_none_or(|(worst, _)| share > worst) {
            self.worst = Some((share, pixel));
        }
        let worst = &mut self.by_roundings[roundings];
        *worst = (*worst).max(Some(share));
    }
}

/// Holds a map of a blur radius to the whole numbers: within the bound, and without a blur exactly.
pub fn hold(map: &[f32], whole: &Whole, blur: usize) -> Tally {
    let mut tally = Tally::default();
    let sizes = (whole.width, whole.height);
    for (at, &value) in map.iter().enumerate() {
        let (x, y) = (at % whole.width, at / whole.width);
        let window = Window::about((x, y), sizes, blur);
        let (count, sum) = (window.count(), whole.sum(&window));
        let share = Share::of(value, count, sum).filter(|share| blur > 0 || share.is_zero());
        let pixel = Pixel {
            x,
            y,
            value,
            count,
            sum,
        };
        tally.add(pixel, share, window.roundings());
    }
    tally
}
