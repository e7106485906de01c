//! A small frame that the search draws on, with the value and the sum of one pixel of its map kept at hand.

use judge::random::Random;
use steyrbunk::{Image, Settings};

use crate::model::mean;
use crate::whole::{within, WAYS};
use crate::window::Window;

/// The sizes of a frame, its radii, and the pixel of the map that is looked at.
#[derive(Clone, Copy, Debug, PartialEq, Eq)]
pub struct Shape {
    pub width: usize,
    pub height: usize,
    pub ray: usize,
    pub blur: usize,
    pub x: usize,
    pub y: usize,
}

impl Shape {
    pub fn window(&self) -> Window {
        Window::about((self.x, self.y), (self.width, self.height), self.blur)
    }

    /// The frame is not upsampled, so that its pixels are the working image.
    pub fn settings(&self) -> Settings {
        Settings {
            ray_radius: self.ray as u32,
            image_upsample: 1,
            response_blur_radius: self.blur as u32,
            ..Settings::default()
        }
    }

    /// Whether a place of the map has rays.
    fn is_within(&self, x: usize, y: usize) -> bool {
        within(x, self.width, self.ray) && within(y, self.height, self.ray)
    }
}

/// Cells of the greatest window.
const CELLS: usize = (2 * limits::BLUR as usize + 1).pow(2);

pub struct Canvas {
    shape: Shape,
    window: Window,
    pixels: Vec<u8>,
    /// The four ray sums of each cell of the window; zeros where it has no rays.
    sums: [[i32; WAYS.len()]; CELLS],
    /// The cells, and the ways there, on whose rays each pixel lies.
    touched: Vec<Vec<(u8, u8)>>,
    /// What the last stroke changed: places and the levels they had.
    changed: Vec<(usize, u8)>,
}

impl Canvas {
    pub fn new(shape: Shape, pixels: &[u8]) -> Canvas {
        let all = shape.width * shape.height;
        let mut canvas = Canvas {
            shape,
            window: shape.window(),
            pixels: vec![0; all],
            sums: [[0; WAYS.len()]; CELLS],
            touched: vec![Vec::new(); all],
            changed: Vec::new(),
        };
        canvas.lay_rays();
        canvas.put(pixels);
        canvas
    }

    fn lay_rays(&mut self) {
        let Window { left, top, .. } = self.window;
        let (width, ray) = (self.shape.width as isize, self.shape.ray as isize);
        for cell in 0..self.window.count() {
            let (x, y) = (
                left + cell % self.window.columns,
                top + cell / self.window.columns,
            );
            if !self.shape.is_within(x, y) {
                continue;
            }
            for (way, (dx, dy)) in WAYS.iter().enumerate() {
                for k in -ray..=ray {
                    let at = (y as isize + k * dy) * width + x as isize + k * dx;
                    self.touched[at as usize].push((cell as u8, way as u8));
                }
            }
        }
    }

    pub fn shape(&self) -> Shape {
        self.shape
    }

    pub fn pixels(&self) -> &[u8] {
        &self.pixels
    }

    pub fn image(&self) -> Image<'_> {
        Image {
            pixels: &self.pixels,
            width: self.shape.width,
            height: self.shape.height,
        }
    }

    /// Another picture of the same sizes.
    pub fn put(&mut self, pixels: &[u8]) {
        for (at, level) in pixels.iter().enumerate() {
            self.set(at, *level);
        }
    }

    fn set(&mut self, at: usize, level: u8) {
        let by = i32::from(level) - i32::from(self.pixels[at]);
        self.pixels[at] = level;
        for (cell, way) in &self.touched[at] {
            self.sums[usize::from(*cell)][usize::from(*way)] += by;
        }
    }

    /// The pixel's value by the model, and the sum that it stands for.
    pub fn value(&self) -> (f32, u64) {
        let Window { columns, rows, .. } = self.window;
        let mut responses = [0; CELLS];
        for (response, sums) in responses.iter_mut().zip(&self.sums).take(columns * rows) {
            let [a, b, c, d] = *sums;
            let spread = a.max(b).max(c.max(d)) - a.min(b).min(c.min(d));
            *response = spread * spread;
        }
        let sum = responses.iter().map(|response| *response as u64).sum();
        let value = mean(columns, rows, |column, row| {
            responses[row * columns + column] as f32
        });
        (value, sum)
    }

    /// The share as the search compares it, by the model.
    pub fn share(&self) -> f64 {
        let (value, sum) = self.value();
        if sum == 0 {
            return 0.0;
        }
        // The product has 30 bits and lies near the sum, so that it and the difference are exact.
        let gap = f64::from(value) * self.window.count() as f64 - sum as f64;
        gap.abs() / sum as f64 * f64::from(1 << 20)
    }

    /// Takes the last stroke back.
    pub fn undo(&mut self) {
        while let Some((at, level)) = self.changed.pop() {
            self.set(at, level);
        }
    }

    fn raise(&mut self, at: usize, by: i32) {
        let level = self.pixels[at];
        self.changed.push((at, level));
        self.set(at, (i32::from(level) + by).clamp(0, 255) as u8);
    }

    /// A column raised or lowered as a whole, so that a frame of upright stripes stays one.
    pub fn stroke_column(&mut self, random: &mut Random) {
        self.changed.clear();
        let by = small_step(random);
        let x = random.below(self.shape.width);
        for y in 0..self.shape.height {
            self.raise(y * self.shape.width + x, by);
        }
    }

    /// A column, or a pixel of the first one beside the window: with the least frame and the longest rays it lies on one ray
    /// only, that of its row's first response.
    pub fn stroke_stripe(&mut self, random: &mut Random) {
        if random.percent(50) {
            return self.stroke_column(random);
        }
        self.changed.clear();
        let by = small_step(random);
        let y = self.window.top + random.below(self.window.rows);
        self.raise(y * self.shape.width, by);
    }

    /// Makes the first column as even as can be had for nothing.
    pub fn even_out(&mut self) {
        let (share, level) = (self.share(), i32::from(self.pixels[0]));
        for y in 0..self.shape.height {
            self.changed.clear();
            let at = y * self.shape.width;
            self.raise(at, level - i32::from(self.pixels[at]));
            if self.share() < share {
                self.undo();
            }
        }
    }

    /// A pixel raised or lowered, often with a pixel beside it the other way, which leaves most sums as they are.
    pub fn stroke_pixel(&mut self, random: &mut Random) {
        self.changed.clear();
        let by = small_step(random);
        let at = random.below(self.pixels.len());
        self.raise(at, by);
        let beside = at + random.pick(&[1, self.shape.width, self.shape.width + 1]);
        if random.percent(50) && beside < self.pixels.len() {
            self.raise(beside, -by);
        }
    }
}

/// Mostly a single level, for the last bits of the sums; seldom many.
fn small_step(random: &mut Random) -> i32 {
    let step = random.pick(&[1, 1, 1, 1, 2, 3, 8]);
    random.pick(&[step, -step])
}
