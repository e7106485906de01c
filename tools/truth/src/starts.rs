//! Frames that the search begins with.

use judge::pictures::{kind, picture};
use judge::random::Random;

use crate::canvas::Shape;

/// Contrast of a stripe whose response, with the longest rays, is about 2^23: two of them reach 2^24, from where on f32 has every
/// second whole number only, and of each small odd square that is added one is lost.
const CONTRAST: usize = 193;

/// Which frames are searched.
#[derive(Clone, Copy)]
pub enum Among {
    All,
    /// Those that depend on x alone, but for the first column beside the window; with the longest rays.
    Stripes,
    /// Those with rays of one radius.
    Ray(usize),
}

/// A shape and its first picture.
pub fn start(random: &mut Random, among: Among, blur: usize) -> (Shape, Vec<u8>) {
    match among {
        Among::Ray(6) if random.percent(50) => bars(random, blur),
        Among::Ray(ray) => any(random, ray, blur),
        Among::All if random.percent(40) => {
            let ray = random.range(1, limits::RAY as usize);
            any(random, ray, blur)
        }
        _ => {
            let shape = least(limits::RAY as usize, blur);
            let columns = stripes(random, shape);
            (shape, drawn(shape, |x, _| columns[x]))
        }
    }
}

/// Three bright columns, for rays of 6, which two do not bring to 2^24. The window's other columns are black within it and grey above and
/// below, so that their upright rays have what the bright columns bring to the others.
fn bars(random: &mut Random, blur: usize) -> (Shape, Vec<u8>) {
    const COUNT: usize = 3;
    let shape = least(6, blur);
    let window = shape.window();
    let bright = random.range(236, 239);
    let grey = COUNT * bright / (2 * shape.ray + 1 - window.rows);
    let level = |x: usize, y: usize| {
        let is_beside = (window.top..window.top + window.rows).contains(&y);
        match x.checked_sub(window.left) {
            Some(place) if place < COUNT => bright,
            Some(place) if place < window.columns && !is_beside => grey,
            _ => 0,
        }
    };
    (shape, drawn(shape, |x, y| level(x, y) as u8))
}

/// Noise, stripes, crossed stripes or what made frames show; windows that are cut among them.
fn any(random: &mut Random, ray: usize, blur: usize) -> (Shape, Vec<u8>) {
    let shape = match random.percent(50) {
        true => least(ray, blur),
        false => cut(random, ray, blur),
    };
    let (columns, rows) = (levels(random, shape.width), levels(random, shape.height));
    // Faint noise has sums that f32 holds, and means that it does not.
    let faint = random.pick(&[2, 4, 16, 256]);
    let pixels = match random.below(4) {
        0 => drawn(shape, |_, _| random.below(faint) as u8),
        1 => drawn(shape, |x, _| columns[x]),
        2 => drawn(shape, |x, y| columns[x] / 2 + rows[y] / 2),
        _ => {
            let kind = kind(random);
            picture(random, kind, shape.width, shape.height)
        }
    };
    (shape, pixels)
}

fn drawn(shape: Shape, mut level: impl FnMut(usize, usize) -> u8) -> Vec<u8> {
    let place = |at: usize| level(at % shape.width, at / shape.width);
    (0..shape.width * shape.height).map(place).collect()
}

/// The least frame whose middle pixel has a whole window with rays.
fn least(ray: usize, blur: usize) -> Shape {
    let middle = ray + blur;
    Shape {
        width: 2 * middle + 1,
        height: 2 * middle + 1,
        ray,
        blur,
        x: middle,
        y: middle,
    }
}

/// Any pixel, and sides that may be too short for a whole window.
fn cut(random: &mut Random, ray: usize, blur: usize) -> Shape {
    let side = |random: &mut Random| 2 * ray + random.range(1, 2 * blur + 1);
    let (width, height) = (side(random), side(random));
    Shape {
        width,
        height,
        ray,
        blur,
        x: random.below(width),
        y: random.below(height),
    }
}

/// A level for each column or row: any of them, or two.
fn levels(random: &mut Random, count: usize) -> Vec<u8> {
    let two = [random.byte(), random.byte()];
    let any = random.percent(50);
    let level = |_| {
        if any {
            random.byte()
        } else {
            random.pick(&two)
        }
    };
    (0..count).map(level).collect()
}

/// Two bright columns at the window's left; its others are the mean of their rays, so that they have next to no response.
fn stripes(random: &mut Random, shape: Shape) -> Vec<u8> {
    let (ray, window) = (2 * shape.ray + 1, shape.window());
    let outside = 2 * CONTRAST / (ray - window.columns);
    let bright = random.range(CONTRAST + outside, 255);
    let (flat, dark) = (bright - CONTRAST, bright - CONTRAST - outside);
    let level = |x: usize| match x.checked_sub(window.left) {
        Some(0 | 1) => bright,
        Some(place) if place < window.columns => flat,
        _ => dark,
    };
    let level = |x| level(x) as u8;
    // The same in black and white: the rays' differences stay.
    let turned = random.percent(50);
    let columns = (0..shape.width).map(level);
    columns
        .map(|level| if turned { 255 - level } else { level })
        .collect()
}
