//! The frames that are timed.

use judge::random::Random;
use judge::{pictures, Kind};

/// What a frame shows.
#[derive(Clone, Copy)]
pub enum Picture {
    /// A turned board of twenty cells across, as a camera sees a panel: soft edges, a little noise.
    Panel,
    /// One of the maker's pictures: small cells, bytes at random, or one level.
    Made(Kind),
}

impl Picture {
    pub const NAMES: &'static str = "panel, board, noise or flat";

    pub fn from_name(name: &str) -> Option<Picture> {
        match name {
            "panel" => Some(Picture::Panel),
            "board" => Some(Picture::Made(Kind::Board)),
            "noise" => Some(Picture::Made(Kind::Random)),
            "flat" => Some(Picture::Made(Kind::Flat)),
            _ => None,
        }
    }

    /// The same bytes for the same size.
    pub fn pixels(self, width: usize, height: usize) -> Vec<u8> {
        let random = &mut Random::new(1, width as u64);
        match self {
            Picture::Panel => panel(random, width, height),
            Picture::Made(kind) => pictures::picture(random, kind, width, height),
        }
    }
}

fn panel(random: &mut Random, width: usize, height: usize) -> Vec<u8> {
    let cell = width as f64 / 20.0;
    let (cos, sin) = (12.0 / 13.0, 5.0 / 13.0);
    let white = |x: f64, y: f64| {
        let (u, v) = ((cos * x + sin * y) / cell, (cos * y - sin * x) / cell);
        (u.floor() + v.floor()).rem_euclid(2.0) == 0.0
    };
    // Sixteen points about a pixel, two pixels wide: an edge that is a little out of focus.
    let cover = |x: usize, y: usize| {
        let point = |k: usize| (k as f64 - 1.5) * 0.5;
        let hits = (0..16).filter(|k| white(x as f64 + point(k % 4), y as f64 + point(k / 4)));
        hits.count() as f64 / 16.0
    };
    let mut pixel = |at: usize| {
        let noise = random.below(7) as f64 - 3.0;
        (50.0 + 150.0 * cover(at % width, at / width) + noise) as u8
    };
    (0..width * height).map(&mut pixel).collect()
}
