//! The documents' rules of the list, read a second time: which of them each candidate fails first, and how many fail each.

use crate::answers::{accepted, Room};
use crate::frame::Frame;
use crate::outcome::Detector;

/// What becomes of a candidate: the first rule that it fails, in document 02's order and words, or that it is kept.
pub const NAMES: [&str; 6] = [
    "not above the floor",
    "beaten by a neighbour",
    "too few positive neighbours",
    "too flat",
    "wrong curvature",
    "kept",
];

const KEPT: usize = NAMES.len() - 1;

/// How many candidates of a frame have each verdict, in the order of `NAMES`.
pub type Verdicts = [u64; NAMES.len()];

/// The six that a file is told by a caller with that room: those of its frame, or zeros with a refusal.
pub fn reported(detector: &mut Detector, file: &[u8], room: Room) -> Verdicts {
    match accepted(file, room) {
        Err(_) => Verdicts::default(),
        Ok(frame) => detector.find(&frame).verdicts,
    }
}

/// The six of an accepted frame.
pub(crate) fn counted(frame: &Frame, working: &[u8], response: &[f32]) -> Verdicts {
    let rules = Rules::new(frame, working, response);
    let mut counts = Verdicts::default();
    for (x, y) in candidates(frame) {
        counts[rules.verdict(x, y)] += 1;
    }
    counts
}

/// The places of an accepted frame that are judged, in row order: "the border is ray + suppression radius + 1".
pub fn candidates(frame: &Frame) -> impl Iterator<Item = (usize, usize)> {
    let ((w, h), border) = (frame.working(), frame.border());
    (border..h - border).flat_map(move |y| (border..w - border).map(move |x| (x, y)))
}

/// What the rules of one frame go by; map and working image are the original's.
pub struct Rules<'a> {
    working: &'a [u8],
    response: &'a [f32],
    w: usize,
    suppression: usize,
    least: usize,
    floor: f32,
    saddle: Saddle,
}

impl<'a> Rules<'a> {
    pub fn new(frame: &Frame, working: &'a [u8], response: &'a [f32]) -> Self {
        // The map of a frame has no number below 0, and nothing that is none.
        let maximum = response.iter().copied().fold(0.0, f32::max);
        Rules {
            working,
            response,
            w: frame.working().0,
            suppression: frame.suppression.into(),
            least: frame.least.into(),
            floor: frame.fraction() * maximum,
            saddle: Saddle::new(frame.radius()),
        }
    }

    /// The verdict on a candidate, as its place in `NAMES`. Each rule is worded by what it asks for, so that what is not a
    /// number would fail it.
    pub fn verdict(&self, x: usize, y: usize) -> usize {
        let value = self.response[y * self.w + x];
        let neighbours = || self.neighbours(x, y);
        let bend = || self.saddle.bend(self.working, self.w, x, y);
        let holds: [&dyn Fn() -> bool; KEPT] = [
            &|| value > self.floor,
            &|| !neighbours().any(|other| other > value),
            &|| neighbours().filter(|other| *other > 0.0).count() >= self.least,
            &|| self.saddle.is_resolved(bend()),
            &|| bend().is_opposite(),
        ];
        let failing = holds.iter().position(|holds| !holds());
        failing.unwrap_or(KEPT)
    }

    /// The values in the square suppression window, without the candidate's own.
    fn neighbours(&self, x: usize, y: usize) -> impl Iterator<Item = f32> + '_ {
        let s = self.suppression;
        let window = (y - s..=y + s).flat_map(move |yy| (x - s..=x + s).map(move |xx| (xx, yy)));
        window
            .filter(move |place| *place != (x, y))
            .map(|(x, y)| self.response[y * self.w + x])
    }
}

/// "offsets with dx²+dy² at most max(k², 2), rows of dy upward, dx upward within"
fn disk(k: isize) -> Vec<(isize, isize)> {
    let square = (-k..=k).flat_map(|dy| (-k..=k).map(move |dx| (dx, dy)));
    square
        .filter(|(dx, dy)| dx * dx + dy * dy <= (k * k).max(2))
        .collect()
}

/// The saddle test of a radius; sums, reciprocals and comparisons in the order and grouping of `SaddleTest`.
struct Saddle {
    k: usize,
    disk: Vec<(isize, isize)>,
    mean: f32,
    inverse_norms: [f32; 3],
}

/// Sum and difference of the two curvatures that are fitted.
#[derive(Clone, Copy)]
struct Bend {
    trace: f32,
    spread: f32,
}

impl Saddle {
    fn new(k: usize) -> Self {
        let disk = disk(k as isize);
        let sum = |of: &dyn Fn(f32, f32) -> f32| {
            let each = disk.iter().map(|(x, y)| of(*x as f32, *y as f32));
            each.fold(0.0, |sum, one| sum + one)
        };
        let square = |number: f32| number * number;
        let mean = sum(&|x, y| x * x + y * y) / disk.len() as f32;
        let norms = [
            sum(&|x, y| square(x * x + y * y - mean)),
            sum(&|x, y| square(x * x - y * y)),
            sum(&|x, y| x * x * y * y),
        ];
        Saddle {
            k,
            mean,
            inverse_norms: norms.map(|norm| 1.0 / norm),
            disk,
        }
    }

    fn bend(&self, image: &[u8], w: usize, x: usize, y: usize) -> Bend {
        let mut sums = [0.0f32; 3];
        for (dx, dy) in &self.disk {
            let (x, y) = (x.wrapping_add_signed(*dx), y.wrapping_add_signed(*dy));
            let pixel = f32::from(image[y * w + x]);
            let (dx, dy) = (*dx as f32, *dy as f32);
            sums[0] += (dx * dx + dy * dy - self.mean) * pixel;
            sums[1] += (dx * dx - dy * dy) * pixel;
            sums[2] += dx * dy * pixel;
        }
        let [p, q, b] = [0, 1, 2].map(|at| sums[at] * self.inverse_norms[at]);
        Bend {
            trace: 4.0 * p,
            spread: (16.0 * q * q + 4.0 * b * b).sqrt(),
        }
    }

    /// Not "too flat (spread times k² below 1)".
    fn is_resolved(&self, bend: Bend) -> bool {
        bend.spread * (self.k * self.k) as f32 >= 1.0
    }
}

impl Bend {
    /// Whether the curvatures have opposite signs, and the lesser has a fifth of the greater's size at least.
    fn is_opposite(self) -> bool {
        self.trace.abs() * (1.0 + 0.2) <= self.spread * (1.0 - 0.2)
    }
}
