//! The pictures of the frame maker. Only sums, products and square roots: the same bytes everywhere.

use crate::random::Random;

/// What a made frame shows.
#[derive(Clone, Copy, Debug, PartialEq, Eq)]
pub enum Kind {
    Board,
    Board45,
    Plateau,
    Lines,
    Random,
    Gradient,
    Dots,
    Flat,
}

pub const KINDS: [Kind; 8] = [
    Kind::Board,
    Kind::Board45,
    Kind::Plateau,
    Kind::Lines,
    Kind::Random,
    Kind::Gradient,
    Kind::Dots,
    Kind::Flat,
];

/// How many of a hundred frames show each kind, in the order of `KINDS`.
const SHARES: [usize; 8] = [38, 14, 14, 10, 11, 7, 3, 3];

pub fn kind(random: &mut Random) -> Kind {
    let mut left = random.below(SHARES.iter().sum());
    for (kind, share) in KINDS.into_iter().zip(SHARES) {
        if left < share {
            return kind;
        }
        left -= share;
    }
    Kind::Flat
}

pub fn picture(random: &mut Random, kind: Kind, w: usize, h: usize) -> Vec<u8> {
    match kind {
        Kind::Board => {
            let turn = direction(random);
            board(random, turn, w, h)
        }
        Kind::Board45 => board(random, (1.0, 1.0), w, h),
        Kind::Plateau => plateau(random, w, h),
        Kind::Lines => lines(random, w, h),
        Kind::Random => noise(random, w, h),
        Kind::Gradient => gradient(random, w, h),
        Kind::Dots => dots(random, w, h),
        Kind::Flat => vec![level(random); w * h],
    }
}

/// A direction by whole numbers: no sine whose last bit depends on the machine.
fn direction(random: &mut Random) -> (f64, f64) {
    (random.range(1, 24) as f64, random.below(25) as f64)
}

fn level(random: &mut Random) -> u8 {
    let any = random.byte();
    random.pick(&[0, 1, 127, 128, 254, 255, any, any])
}

/// Dark and bright: full, middling or hardly any contrast.
fn levels(random: &mut Random) -> (f64, f64) {
    let (low, step) = match random.below(4) {
        0 => (0, 255),
        1 => (random.below(40), random.range(160, 215)),
        2 => (random.below(120), random.range(30, 130)),
        _ => (random.below(230), random.range(1, 24)),
    };
    (low as f64, (low + step) as f64)
}

/// Ground and what is drawn on it: a dark ground so many times in a hundred.
fn ground(random: &mut Random, dark_grounds: usize) -> (f64, f64) {
    let (dark, bright) = levels(random);
    if random.percent(dark_grounds) {
        (dark, bright)
    } else {
        (bright, dark)
    }
}

fn each(w: usize, h: usize, mut pixel: impl FnMut(f64, f64) -> f64) -> Vec<u8> {
    let mut out = Vec::with_capacity(w * h);
    for y in 0..h {
        for x in 0..w {
            // A cast cuts to 0 and 255.
            out.push((pixel(x as f64, y as f64) + 0.5) as u8);
        }
    }
    out
}

/// A turned, sheared, scaled chessboard, then blurred and made noisy.
fn board(random: &mut Random, (a, b): (f64, f64), w: usize, h: usize) -> Vec<u8> {
    let length = (a * a + b * b).sqrt();
    let (cos, sin) = (a / length, b / length);
    let shear = if random.percent(30) {
        random.between(-0.4, 0.4)
    } else {
        0.0
    };
    let cell = random.between(2.5, (w.min(h) as f64 / 2.2).clamp(4.0, 16.0));
    // A crossing near the middle, where the border does not hide it.
    let ox = random.between(0.3, 0.7) * w as f64;
    let oy = random.between(0.3, 0.7) * h as f64;
    let (dark, bright) = levels(random);
    let fine = random.range(1, 4);
    let white = |x: f64, y: f64| {
        let u = (cos * (x - ox) + sin * (y - oy)) / cell;
        let v = (cos * (y - oy) - sin * (x - ox)) / cell + shear * u;
        (u.floor() + v.floor()).rem_euclid(2.0) == 0.0
    };
    let mut image = each(w, h, |x, y| {
        dark + (bright - dark) * cover(x, y, fine, &white)
    });
    for _ in 0..random.pick(&[0, 0, 1, 2, 3]) {
        image = soften(&image, w, h);
    }
    let amplitude = random.pick(&[0, 0, 0, 1, 3, 8, 30]);
    shake(random, &mut image, amplitude);
    image
}

/// The part of a pixel that is white, by a square of sample points.
fn cover(x: f64, y: f64, fine: usize, white: &impl Fn(f64, f64) -> bool) -> f64 {
    let place = |k: usize| (k as f64 + 0.5) / fine as f64 - 0.5;
    let hits = (0..fine * fine)
        .filter(|k| white(x + place(k % fine), y + place(k / fine)))
        .count();
    hits as f64 / (fine * fine) as f64
}

/// A box of three by three, cut at the edges.
fn soften(image: &[u8], w: usize, h: usize) -> Vec<u8> {
    each(w, h, |x, y| {
        let (x, y) = (x as usize, y as usize);
        let (mut sum, mut count) = (0.0, 0.0);
        for yy in y.saturating_sub(1)..(y + 2).min(h) {
            for xx in x.saturating_sub(1)..(x + 2).min(w) {
                sum += f64::from(image[yy * w + xx]);
                count += 1.0;
            }
        }
        sum / count
    })
}

fn shake(random: &mut Random, image: &mut [u8], amplitude: i32) {
    if amplitude == 0 {
        return;
    }
    for pixel in image {
        let by = random.below(2 * amplitude as usize + 1) as i32 - amplitude;
        *pixel = (i32::from(*pixel) + by).clamp(0, 255) as u8;
    }
}

/// A tile laid end to end, so that equal maxima repeat: a plain board, or a few levels at random.
fn plateau(random: &mut Random, w: usize, h: usize) -> Vec<u8> {
    let (p, q) = (random.range(2, 7), random.range(2, 7));
    let (dark, bright) = levels(random);
    let start = (random.below(2 * p), random.below(2 * q));
    if random.percent(60) {
        // Cells of whole pixels: the four pixels at a crossing weigh the same.
        let square = |x: f64, y: f64| (x as usize + start.0) / p + (y as usize + start.1) / q;
        return each(
            w,
            h,
            |x, y| if square(x, y) % 2 == 0 { bright } else { dark },
        );
    }
    let middle = (dark + bright) / 2.0;
    let tile: Vec<f64> = (0..p * q)
        .map(|_| random.pick(&[dark, bright, bright, middle]))
        .collect();
    each(w, h, |x, y| tile[(y as usize % q) * p + x as usize % p])
}

/// Thin lines, along the rays and across them.
fn lines(random: &mut Random, w: usize, h: usize) -> Vec<u8> {
    let (ground, ink) = ground(random, 50);
    let count = random.range(1, 5);
    let drawn: Vec<[f64; 4]> = (0..count).map(|_| line(random, w, h)).collect();
    each(w, h, |x, y| {
        let on = |l: &[f64; 4]| (l[0] * x + l[1] * y - l[2]).abs() <= l[3];
        if drawn.iter().any(on) {
            ink
        } else {
            ground
        }
    })
}

/// Normal, distance and half width of a line through a pixel of the frame.
fn line(random: &mut Random, w: usize, h: usize) -> [f64; 4] {
    let (a, b) = match random.below(5) {
        0 => (1.0, 0.0),
        1 => (0.0, 1.0),
        2 => (1.0, 1.0),
        3 => (1.0, -1.0),
        _ => direction(random),
    };
    let (x, y) = (random.below(w) as f64, random.below(h) as f64);
    let half = random.pick(&[0.5, 0.5, 1.0, 1.5]) * (a * a + b * b).sqrt();
    [a, b, a * x + b * y, half * 0.999]
}

/// Bytes at random: all of them, two levels, a few levels around one.
fn noise(random: &mut Random, w: usize, h: usize) -> Vec<u8> {
    let base = level(random);
    let way = random.below(3);
    let (dark, bright) = levels(random);
    let mut pixel = || match way {
        0 => random.byte(),
        1 => random.pick(&[dark as u8, bright as u8]),
        _ => base.saturating_add(random.below(6) as u8),
    };
    (0..w * h).map(|_| pixel()).collect()
}

/// A slope, a saddle or a bowl.
fn gradient(random: &mut Random, w: usize, h: usize) -> Vec<u8> {
    let (cx, cy) = (random.unit() * w as f64, random.unit() * h as f64);
    let (a, b) = (random.between(-8.0, 8.0), random.between(-8.0, 8.0));
    let way = random.below(4);
    each(w, h, |x, y| {
        let (dx, dy) = (x - cx, y - cy);
        128.0
            + match way {
                0 => a * dx + b * dy,
                1 => a * dx * dy,
                2 => a * (dx * dx - dy * dy) * 0.5,
                _ => (a * dx * dx + b * dy * dy) * 0.25,
            }
    })
}

/// Single pixels, bright on dark or dark on bright.
fn dots(random: &mut Random, w: usize, h: usize) -> Vec<u8> {
    let (ground, dot) = ground(random, 70);
    let mut image = vec![ground as u8; w * h];
    for _ in 0..random.range(1, 8) {
        let at = random.below(w * h);
        if let Some(pixel) = image.get_mut(at) {
            *pixel = dot as u8;
        }
    }
    image
}
