//! The search for a large share: frames made to be bad, changed by small strokes that may make them a little better again.

use std::collections::BTreeMap;

use judge::random::Random;

use crate::canvas::{Canvas, Shape};
use crate::starts::{start, Among};

/// A part of the way from one start.
#[derive(Clone, Copy)]
struct Leg {
    strokes: u64,
    /// How much of the share a stroke may cost at first; by the last one nothing.
    slack: f64,
    stroke: fn(&mut Canvas, &mut Random),
}

/// Whole columns first, coarsely; then what changes less at a time.
const COLUMNS: Leg = Leg {
    strokes: 20_000,
    slack: 0.03,
    stroke: Canvas::stroke_column,
};
const PIXELS: Leg = Leg {
    strokes: 480_000,
    slack: 0.005,
    stroke: Canvas::stroke_pixel,
};
const STRIPES: Leg = Leg {
    stroke: Canvas::stroke_stripe,
    ..PIXELS
};

fn legs(among: Among) -> [Leg; 2] {
    match among {
        Among::Stripes => [COLUMNS, STRIPES],
        _ => [COLUMNS, PIXELS],
    }
}

/// A frame that was found, with its share by the model: the library is still to be asked.
pub struct Frame {
    pub share: f64,
    pub shape: Shape,
    pub pixels: Vec<u8>,
}

/// For a blur radius the worst frames that so many strokes lead to, one for each number of roundings, the worst of them first.
pub fn search(
    among: Among,
    seed: u64,
    blur: usize,
    steps: u64,
    mut told: impl FnMut(u64, f64),
) -> Vec<Frame> {
    let random = &mut Random::new(seed, blur as u64);
    let mut worst: BTreeMap<usize, Frame> = BTreeMap::new();
    let (mut left, mut most) = (steps, 0.0f64);
    while left > 0 {
        let (shape, pixels) = start(random, among, blur);
        let canvas = &mut Canvas::new(shape, &pixels);
        for leg in legs(among) {
            let strokes = leg.strokes.min(left);
            climb(canvas, random, Leg { strokes, ..leg });
            left -= strokes;
        }
        if let Among::Stripes = among {
            canvas.even_out();
        }
        let (share, roundings) = (canvas.share(), shape.window().roundings());
        most = most.max(share);
        if worst
            .get(&roundings)
            .is_none_or(|frame| share > frame.share)
        {
            let pixels = canvas.pixels().to_vec();
            let frame = Frame {
                share,
                shape,
                pixels,
            };
            worst.insert(roundings, frame);
        }
        told(steps - left, most);
    }
    let mut worst: Vec<Frame> = worst.into_values().collect();
    worst.sort_by(|a, b| b.share.total_cmp(&a.share));
    worst
}

/// Leaves the worst picture that was come by.
fn climb(canvas: &mut Canvas, random: &mut Random, leg: Leg) {
    let mut share = canvas.share();
    let mut worst = (share, canvas.pixels().to_vec());
    for left in (0..leg.strokes).rev() {
        let slack = leg.slack * left as f64 / leg.strokes as f64;
        (leg.stroke)(canvas, random);
        let next = canvas.share();
        if next < share - slack {
            canvas.undo();
            continue;
        }
        share = next;
        if share > worst.0 {
            worst = (share, canvas.pixels().to_vec());
        }
    }
    canvas.put(&worst.1);
}
