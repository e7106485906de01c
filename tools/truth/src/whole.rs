//! The unblurred map read again in whole numbers: rays summed pixel by pixel over the working image, no tables, no floats.

use crate::window::Window;

/// The four ways of a ray.
pub const WAYS: [(isize, isize); 4] = [(1, 0), (0, 1), (1, 1), (1, -1)];

/// The unblurred responses of a working image.
pub struct Whole {
    pub width: usize,
    pub height: usize,
    responses: Vec<u64>,
}

/// Whether a place is at least a ray away from both ends.
pub fn within(at: usize, places: usize, ray: usize) -> bool {
    at >= ray && at + ray < places
}

impl Whole {
    pub fn of(working: &[u8], width: usize, height: usize, ray: usize) -> Whole {
        let response = |at| {
            let (x, y) = (at % width, at / width);
            if !within(x, width, ray) || !within(y, height, ray) {
                return 0;
            }
            let along = |(dx, dy): (isize, isize)| -> u64 {
                let step = dy * width as isize + dx;
                let first = at as isize - ray as isize * step;
                let places = (0..=2 * ray as isize).map(|k| first + k * step);
                places.map(|at| u64::from(working[at as usize])).sum()
            };
            let sums = WAYS.map(along);
            let (least, most) = (sums.iter().min(), sums.iter().max());
            (most.unwrap_or(&0) - least.unwrap_or(&0)).pow(2)
        };
        Whole {
            width,
            height,
            responses: (0..width * height).map(response).collect(),
        }
    }

    pub fn at(&self, x: usize, y: usize) -> u64 {
        self.responses[y * self.width + x]
    }

    /// What the pixels of a window have together.
    pub fn sum(&self, window: &Window) -> u64 {
        let rows = window.top..window.top + window.rows;
        let row = |y| {
            let first = y * self.width + window.left;
            self.responses[first..first + window.columns]
                .iter()
                .sum::<u64>()
        };
        rows.map(row).sum()
    }
}
