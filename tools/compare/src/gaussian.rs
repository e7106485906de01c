//! How far Gaussian places lie apart, and how far they may: the one difference that is allowed.
//!
//! An offset is a quotient. Its denominator is the peak's curvature, the second difference of three
//! logarithms, so two logarithms that are a little apart give offsets that are about that much
//! divided by the curvature apart. A peak that is flat but for rounding has no place of its own:
//! there the offsets of either program are whatever the last bits of its logarithm make them.

use steyrbunk::{Corner, Map};

/// Upper ends of the curvatures by which distances are counted; the last class has none.
pub const CURVATURES: [f64; 7] = [1e-6, 1e-5, 1e-4, 1e-3, 1e-2, 1e-1, 1.0];

/// Upper ends of the doublings between a peak and its lower neighbour by which the lean is counted; the last class has none.
pub const DOUBLINGS: [f64; 4] = [1.0, 2.0, 4.0, 8.0];

/// Peaks with less curvature have no part in the lean: what moves them is rounding.
pub const FLAT: f64 = 1e-2;

/// Greatest distance in working pixels times curvature that is allowed, if the caller names none: a little
/// over twice the greatest of a million made frames (docs/DIFFERENCES.md).
pub const BOUND: f64 = 4e-6;

/// Coordinates that are not equal, and the greatest distance among them in input pixels and steps of an f32.
#[derive(Clone, Copy, Debug, Default, PartialEq)]
pub struct Class {
    pub coordinates: u64,
    pub pixels: f32,
    pub steps: u32,
}

impl Class {
    pub fn join(&mut self, other: Class) {
        self.coordinates += other.coordinates;
        self.pixels = self.pixels.max(other.pixels);
        self.steps = self.steps.max(other.steps);
    }
}

/// Coordinates, equal ones too, and which way ours lie from the Rust's.
#[derive(Clone, Copy, Debug, Default, PartialEq)]
pub struct Lean {
    pub coordinates: u64,
    /// Working pixels toward the greater neighbour, all added up; where both are equal there is no such way.
    pub toward: f64,
    /// Working pixels either way, all added up.
    pub apart: f64,
    /// The greatest of these.
    pub greatest: f64,
}

impl Lean {
    fn join(&mut self, other: Lean) {
        self.coordinates += other.coordinates;
        self.toward += other.toward;
        self.apart += other.apart;
        self.greatest = self.greatest.max(other.greatest);
    }

    /// Of all coordinates, so many working pixels each.
    pub fn mean(&self, sum: f64) -> f64 {
        sum / self.coordinates.max(1) as f64
    }
}

/// Coordinates of Gaussian corners: those that are equal, and the others by curvature; and the lean of all by doublings.
#[derive(Clone, Copy, Debug, Default, PartialEq)]
pub struct Distances {
    pub equal: u64,
    pub classes: [Class; CURVATURES.len() + 1],
    pub leans: [Lean; DOUBLINGS.len() + 1],
    /// The greatest of distance in working pixels, less one step, times curvature.
    pub product: f64,
}

impl Distances {
    pub fn join(&mut self, other: &Distances) {
        self.equal += other.equal;
        self.product = self.product.max(other.product);
        let pairs = self.classes.iter_mut().zip(other.classes);
        pairs.for_each(|(class, more)| class.join(more));
        let pairs = self.leans.iter_mut().zip(other.leans);
        pairs.for_each(|(lean, more)| lean.join(more));
    }

    pub fn all(&self) -> Class {
        let mut all = Class::default();
        self.classes.iter().for_each(|class| all.join(*class));
        all
    }

    pub fn lean(&self) -> Lean {
        let mut all = Lean::default();
        self.leans.iter().for_each(|lean| all.join(*lean));
        all
    }
}

/// What the places of one list are held to.
pub struct Places<'a> {
    pub map: Map<'a>,
    pub factor: usize,
    /// Greatest product of distance and curvature that is allowed.
    pub bound: f64,
}

impl Places<'_> {
    /// Whether both places of a corner are near enough, x then y; counts them.
    pub fn near(&self, theirs: &Corner, ours: &Corner, distances: &mut Distances) -> [bool; 2] {
        let pairs = [(theirs.x, ours.x), (theirs.y, ours.y)];
        let slopes = self.slopes(theirs, ours);
        [0, 1].map(|axis| self.coordinate(pairs[axis], slopes[axis], distances))
    }

    fn coordinate(
        &self,
        (theirs, ours): (f32, f32),
        slope: Slope,
        distances: &mut Distances,
    ) -> bool {
        let curvature = slope.curvature;
        if curvature.is_finite() && curvature >= FLAT {
            let moved = f64::from(ours - theirs) * self.factor as f64;
            let class = class(slope.doublings, &DOUBLINGS);
            distances.leans[class].join(Lean {
                coordinates: 1,
                toward: moved * slope.way,
                apart: moved.abs(),
                greatest: moved.abs(),
            });
        }
        // Places are above 0, so their bits are in order.
        let steps = theirs.to_bits().abs_diff(ours.to_bits());
        if steps == 0 {
            distances.equal += 1;
            return true;
        }
        let pixels = (theirs - ours).abs();
        distances.classes[class(curvature, &CURVATURES)].join(Class {
            coordinates: 1,
            pixels,
            steps,
        });
        let working = f64::from(pixels) * self.factor as f64;
        let step = working / f64::from(steps);
        // A sum of pixel and offset is rounded to a step; two offsets that differ may fall on either side.
        let product = (working - step) * curvature;
        distances.product = distances.product.max(product);
        working <= 1.0 && curvature.is_finite() && product <= self.bound
    }

    /// The slopes along x and y, of the pixels that both places can belong to those with the least curvature.
    fn slopes(&self, theirs: &Corner, ours: &Corner) -> [Slope; 2] {
        let Map {
            width: w, response, ..
        } = self.map;
        let near =
            |pixel: usize, place: f32| (pixel as f32 - place * self.factor as f32).abs() <= 0.5;
        let pixels = |a: f32, b: f32| {
            let first = (a * self.factor as f32) as usize;
            (first.max(1)..first + 2).filter(move |pixel| near(*pixel, a) && near(*pixel, b))
        };
        let mut least = [Slope::NONE; 2];
        for y in pixels(theirs.y, ours.y) {
            for at in pixels(theirs.x, ours.x).map(|x| y * w + x) {
                if response[at].to_bits() == theirs.strength.to_bits() {
                    let along = [1, w].map(|step| Slope::at(response, at, step));
                    least = [0, 1].map(|axis| least[axis].flatter(along[axis]));
                }
            }
        }
        least
    }
}

/// The number of the first class whose end is above a value.
fn class(value: f64, ends: &[f64]) -> usize {
    let first = ends.iter().position(|end| value < *end);
    first.unwrap_or(ends.len())
}

/// How a maximum falls off along an axis.
#[derive(Clone, Copy)]
struct Slope {
    /// How much the logarithm bends; without end beside a value of 0, where no logarithm is taken.
    curvature: f64,
    /// How often the lower neighbour is to be doubled to be as great.
    doublings: f64,
    /// The greater neighbour's side: 1 where it comes after, -1 before, 0 where both are equal.
    way: f64,
}

impl Slope {
    const NONE: Slope = Slope {
        curvature: f64::INFINITY,
        doublings: f64::INFINITY,
        way: 0.0,
    };

    fn at(response: &[f32], at: usize, step: usize) -> Slope {
        let ln = |at: usize| f64::from(response[at]).ln();
        let (here, before, after) = (ln(at), ln(at - step), ln(at + step));
        let lower = before.min(after);
        Slope {
            curvature: 2.0 * here - before - after,
            doublings: (here - lower) / std::f64::consts::LN_2,
            way: (after > lower) as i8 as f64 - (before > lower) as i8 as f64,
        }
    }

    fn flatter(self, other: Slope) -> Slope {
        if other.curvature < self.curvature {
            other
        } else {
            self
        }
    }
}

#[cfg(test)]
mod tests {
    use super::*;

    /// A row of values about a peak at its middle; the greater neighbour comes after.
    const ROW: [f32; 3] = [100.0, 800.0, 400.0];

    /// Both coordinates of a peak at (1, 1), whose neighbours along y are equal; the places along x and y moved by so much.
    fn held([along, across]: [f32; 2], factor: usize) -> Distances {
        let mut response = [1.0f32; 9];
        response[3..6].copy_from_slice(&ROW);
        let place = |x: f32, y: f32| Corner {
            x: x / factor as f32,
            y: y / factor as f32,
            strength: 800.0,
        };
        let places = Places {
            map: Map {
                width: 3,
                height: 3,
                working: &[],
                row_cumsum: &[],
                col_cumsum: &[],
                diag_pos_cumsum: &[],
                diag_neg_cumsum: &[],
                response: &response,
                blur_scratch: &[],
            },
            factor,
            bound: BOUND,
        };
        let mut distances = Distances::default();
        let ours = place(1.25 + along, 1.0 + across);
        places.near(&place(1.25, 1.0), &ours, &mut distances);
        distances
    }

    const STEP: f32 = 0.000_244_140_625;

    /// Ours a little further to the greater neighbour, or to the lower one: the lean has that sign, in working pixels, in the
    /// class of the three doublings from the lower neighbour to the peak. Along y, where nothing moved, it is 0.
    #[test]
    fn the_way_is_told() {
        for (moved, factor) in [(STEP, 1), (-STEP, 1), (STEP, 2), (-STEP, 2)] {
            let distances = held([moved, 0.0], factor);
            let [_, _, lean, _, last] = distances.leans;
            assert_eq!((lean.coordinates, last.coordinates), (1, 1));
            assert_eq!((lean.toward, lean.apart), (moved.into(), STEP.into()));
            assert_eq!((last.toward, last.apart, last.greatest), (0.0, 0.0, 0.0));
            assert_eq!(lean.mean(lean.toward), f64::from(moved));
            assert_eq!((distances.equal, distances.all().coordinates), (1, 1));
        }
        let same = held([0.0; 2], 2);
        assert_eq!((same.equal, same.all().coordinates), (2, 0));
        assert_eq!(same.leans[2].coordinates, 1);
    }

    /// Between two equal neighbours a place that moved has a distance, and no way.
    #[test]
    fn no_way_between_equal_neighbours() {
        for moved in [STEP, -STEP] {
            let last = held([0.0, moved], 2).leans[4];
            assert_eq!((last.coordinates, last.toward), (1, 0.0));
            assert_eq!((last.apart, last.greatest), (STEP.into(), STEP.into()));
        }
    }
}
