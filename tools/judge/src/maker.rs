//! The seeded frame maker: any frame again from its seed and index.

use crate::answers::Room;
use crate::frame::{Frame, HEAD, LEAD};
use crate::pictures::{kind, picture, Kind};
use crate::random::Random;

/// How large the frames may be.
#[derive(Clone, Copy, Debug)]
pub struct Sizes {
    /// Working pixels.
    pub room: usize,
    /// Input pixels along a side.
    pub side: usize,
    /// Whether a few frames pass the room.
    pub over: bool,
}

impl Sizes {
    /// For the program; a few frames are larger than it takes.
    pub const PROGRAM: Sizes = Sizes {
        room: Room::PROGRAM.pixels,
        side: limits::SIDE,
        over: true,
    };

    /// At most so many working pixels.
    pub fn within(room: usize) -> Self {
        Sizes {
            room,
            side: limits::SIDE,
            over: false,
        }
    }

    /// Sides up to that many pixels, as far as document 01 takes them.
    pub fn up_to(side: usize) -> Self {
        Sizes {
            room: limits::WORKING,
            side,
            over: false,
        }
    }
}

/// A made frame and what it shows.
pub struct Made {
    pub kind: Kind,
    pub frame: Frame,
}

/// The frame file of a seed and an index, sized for the program.
pub fn make(seed: u64, index: u64) -> Vec<u8> {
    made(seed, index, Sizes::PROGRAM).frame.bytes()
}

/// The same with sizes of the caller's choice.
pub fn made(seed: u64, index: u64, sizes: Sizes) -> Made {
    let random = &mut Random::new(seed, index);
    let kind = kind(random);
    let mut frame = if random.percent(75) {
        usual(random)
    } else {
        limits(random)
    };
    let (w, h) = sides(random, &frame, sizes);
    frame.width = w as u16;
    frame.height = h as u16;
    frame.pixels = picture(random, kind, w, h);
    if random.percent(1) {
        misfit(random, &mut frame);
    }
    Made { kind, frame }
}

/// Settings as a site might choose them.
fn usual(random: &mut Random) -> Frame {
    Frame {
        width: 0,
        height: 0,
        ray: random.pick(&[1, 1, 2, 2, 2, 3, 3, 4, 4, 5]),
        upsampling: random.pick(&[1, 1, 2]),
        blur: random.pick(&[0, 0, 1, 1, 2, 3]),
        mode: random.below(2) as u8,
        suppression: random.pick(&[0, 1, 1, 2, 2, 3, 4, 4, 6]),
        least: random.pick(&[0, 1, 2, 2, 3, 6]),
        threshold: random.pick(&[0.0f32, 0.02, 0.1, 0.28, 0.28, 0.5]).to_bits(),
        pixels: Vec::new(),
    }
}

const THRESHOLDS: [u32; 10] = [
    0x0000_0000, // 0
    0x8000_0000, // negative zero
    0x0000_0001, // least subnormal
    0x007F_FFFF, // greatest subnormal
    0x0080_0000, // least normal
    0x3E8F_5C29, // 0.28
    0x3F7F_FFFF, // just below 1
    0x3F7F_FFFE,
    0x3F00_0000, // 0.5
    0x3F80_0000, // 1
];

const THRESHOLDS_OUT: [u32; 9] = [
    0x3F80_0001, // just above 1
    0x8000_0001, // just below 0
    0xBF80_0000, // -1
    0x4000_0000, // 2
    0x7F80_0000, // infinities
    0xFF80_0000,
    0x7FC0_0000, // NaN, quiet, signalling, negative
    0x7F80_0001,
    0xFFC0_0000,
];

/// Each setting at and around its limits, now and then past them.
fn limits(random: &mut Random) -> Frame {
    let mut frame = usual(random);
    let most = limits::RAY as u8;
    let (within, past) = ([0, 1, most - 1, most], [most + 1, most + 2, 255]);
    frame.ray = edge(random, frame.ray, &within, &past);
    frame.upsampling = random.pick(&[0, 1, 2, 3, 4, 255]);
    let most = limits::BLUR as u8;
    frame.blur = edge(random, frame.blur, &[0, 1, 2, most], &[most + 1, 255]);
    let most = limits::SUPPRESSION as u8;
    let (within, past) = ([0, 1, 2, 7, 8, 16, most - 1, most], [most + 1, 255]);
    frame.suppression = edge(random, frame.suppression, &within, &past);
    let counts = [0, 1, 2, 3, 7, 8, 9, 24, 80, 4_224, 4_225, 65_535];
    frame.least = edge(random, frame.least, &counts, &[]);
    frame.threshold = edge(random, frame.threshold, &THRESHOLDS, &THRESHOLDS_OUT);
    frame
}

/// The usual value, one at its limits, or seldom one past them.
fn edge<T: Copy>(random: &mut Random, usual: T, within: &[T], past: &[T]) -> T {
    match random.below(100) {
        0..=2 if !past.is_empty() => random.pick(past),
        3..=45 => random.pick(within),
        _ => usual,
    }
}

/// Width and height in input pixels.
fn sides(random: &mut Random, frame: &Frame, sizes: Sizes) -> (usize, usize) {
    let factor = frame.factor();
    let room = sizes.room / (factor * factor);
    let side = sizes.side;
    // The settings may be past their limits; the sizes need not follow them there.
    let r = frame.radius().min(limits::RAY as usize + 1);
    let border = r + (frame.suppression as usize).min(limits::SUPPRESSION as usize + 1) + 1;
    let (w, h) = match random.below(100) {
        0..=72 => roomy(random, room, side),
        73..=81 => (
            near(random, 2 * border, factor),
            near(random, 2 * border, factor),
        ),
        82..=86 => (near(random, 2 * r, factor), near(random, 2 * r, factor)),
        87..=95 => odd(random, room, side, [2 * r, 2 * border], factor),
        96..=97 => thin(random, room, side),
        _ if sizes.over => return roomy(random, 4 * room, side),
        _ => roomy(random, room, side),
    };
    let w = w.min(side).min(room);
    (w, h.min(side).min(room / w.max(1)))
}

/// Sides that use most of the room.
fn roomy(random: &mut Random, room: usize, side: usize) -> (usize, usize) {
    let root = ((room as f64).sqrt() as usize).min(side);
    let w = random.range(root / 2, (root + root / 2).min(side)).max(1);
    let most = (room / w).min(side);
    (w, random.range(most - most / 4, most))
}

/// A side around a working length: from two short of it to eight past it.
fn near(random: &mut Random, length: usize, factor: usize) -> usize {
    (length + random.below(11)).saturating_sub(2) / factor
}

/// One or both sides of 0, 1, 2, or at and one past a working length that matters.
fn odd(
    random: &mut Random,
    room: usize,
    side: usize,
    lengths: [usize; 2],
    factor: usize,
) -> (usize, usize) {
    let [ray, border] = lengths.map(|length| length / factor);
    let choice = [0, 1, 2, ray, ray + 1, border, border + 1];
    let (w, h) = roomy(random, room, side);
    match random.below(3) {
        0 => (random.pick(&choice), h),
        1 => (w, random.pick(&choice)),
        _ => (random.pick(&choice), random.pick(&choice)),
    }
}

/// One side of a few pixels, the other as long as may be.
fn thin(random: &mut Random, room: usize, side: usize) -> (usize, usize) {
    let small = random.range(1, 4);
    let long = random.range(1, (room / small).clamp(1, side));
    if random.percent(50) {
        (small, long)
    } else {
        (long, small)
    }
}

/// A size that the pixels do not have, or one that is too great.
fn misfit(random: &mut Random, frame: &mut Frame) {
    let most = limits::SIDE as u16;
    match random.below(5) {
        0 => frame.pixels.push(0),
        1 => drop(frame.pixels.pop()),
        2 => frame.width = frame.width.wrapping_add(1),
        3 => {
            (frame.width, frame.height) = (random.pick(&[most + 1, 65_535]), 0);
            frame.pixels.clear();
        }
        _ => frame.height = random.pick(&[most, most + 1, 65_535]),
    }
}

/// A damaged byte string of a seed and an index.
pub fn damaged(seed: u64, index: u64) -> Vec<u8> {
    let random = &mut Random::new(!seed, index);
    let mut file = make(seed, index);
    match random.below(16) {
        0 => file.truncate(random.below(2)),
        1 => file.truncate(random.range(18, 20)),
        2 => return lengthened(random, Room::PROGRAM.bytes),
        3 => return lengthened(random, Room::PROGRAM.bytes + 1),
        4 => file[0] = random.pick(&[0, 2, 3, 255]),
        5 => file[12] = random.pick(&[2, 3, 128, 255]),
        6 => restate(random, &mut file),
        7 => file[5 + 2 * random.below(2)..][..2].fill(255),
        8 => file[5..9].fill(255),
        9 => file.truncate(random.below(file.len())),
        10 => {
            file.truncate(random.range(LEAD, file.len()));
            state(&mut file);
        }
        11 => extend(random, &mut file),
        12 => {
            extend(random, &mut file);
            state(&mut file);
        }
        13 => return (0..random.below(2_400)).map(|_| random.byte()).collect(),
        14 => strike(random, &mut file, HEAD),
        _ => {
            // Noise after a sound opening gets further than noise alone.
            let mut noise: Vec<u8> = (0..random.range(20, 60)).map(|_| random.byte()).collect();
            noise[0] = 1;
            state(&mut noise);
            return noise;
        }
    }
    file
}

/// Writes the true length where the file states it.
fn state(file: &mut [u8]) {
    let length = file.len().saturating_sub(LEAD) as u32;
    if let Some(stated) = file.get_mut(1..LEAD) {
        stated.copy_from_slice(&length.to_be_bytes());
    }
}

/// A wrong stated length, by one or by far.
fn restate(random: &mut Random, file: &mut [u8]) {
    let length = (file.len() - LEAD) as u32;
    let wrong = [
        length + 1,
        length - 1,
        length + 5,
        0,
        15,
        0xFFFF_FFFF,
        length.swap_bytes(),
    ];
    file[1..LEAD].copy_from_slice(&random.pick(&wrong).to_be_bytes());
}

fn extend(random: &mut Random, file: &mut Vec<u8>) {
    for _ in 0..random.range(1, 30) {
        file.push(random.byte());
    }
}

/// One to three bytes of the opening, at random.
fn strike(random: &mut Random, file: &mut [u8], upto: usize) {
    for _ in 0..random.range(1, 3) {
        file[random.below(upto)] = random.byte();
    }
}

/// A file of just that length: 48 by 48 and what is left over, as stated or as one long row.
fn lengthened(random: &mut Random, length: usize) -> Vec<u8> {
    let mut frame = made(random.next(), 0, Sizes::within(1)).frame;
    let pixels = length - HEAD;
    (frame.width, frame.height) = if random.percent(50) {
        (48, 48)
    } else {
        (pixels as u16, 1)
    };
    frame.upsampling = random.pick(&[0, 1, 1, 2]);
    frame.pixels = picture(random, Kind::Board, pixels, 1);
    frame.bytes()
}
