//! The worst frames that were found, in `worst/`: they still have the shares that are written here.

use std::fs;
use std::path::{Path, PathBuf};

use frames::Named;
use steyrbunk::{Finder, Image, Settings};
use truth::{look, Pixel, Whole, Window};

/// A frame, its radii, and the pixel with the worst share of its map.
struct Worst {
    file: &'static str,
    ray: u32,
    blur: u32,
    sizes: (usize, usize),
    place: (usize, usize),
    bits: u32,
    count: usize,
    sum: u64,
    /// In lowest terms.
    share: (u128, u128),
}

const WORST: [Worst; 7] = [
    Worst {
        file: "blur1-ray7.pgm",
        ray: 7,
        blur: 1,
        sizes: (17, 17),
        place: (8, 8),
        bits: 0x4aaa_aab6,
        count: 9,
        sum: 50_331_689,
        share: (10_485_760, 50_331_689),
    },
    Worst {
        file: "blur2-ray7.pgm",
        ray: 7,
        blur: 2,
        sizes: (19, 19),
        place: (9, 9),
        bits: 0x4a4c_debb,
        count: 25,
        sum: 83_914_800,
        share: (81_920, 209_787),
    },
    Worst {
        file: "blur3-ray7.pgm",
        ray: 7,
        blur: 3,
        sizes: (21, 21),
        place: (10, 10),
        bits: 0x4a12_55e8,
        count: 49,
        sum: 117_480_602,
        share: (33_554_432, 58_740_301),
    },
    Worst {
        file: "blur3-ray7-stripes.pgm",
        ray: 7,
        blur: 3,
        sizes: (21, 21),
        place: (10, 10),
        bits: 0x4a12_9fa8,
        count: 49,
        sum: 117_711_882,
        share: (33_554_432, 58_855_941),
    },
    Worst {
        file: "blur3-ray7-one-pixel.pgm",
        ray: 7,
        blur: 3,
        sizes: (21, 21),
        place: (10, 10),
        bits: 0x4a12_5598,
        count: 49,
        sum: 117_479_618,
        share: (31_457_280, 58_739_809),
    },
    Worst {
        file: "blur3-ray7-short.pgm",
        ray: 7,
        blur: 3,
        sizes: (21, 19),
        place: (10, 8),
        bits: 0x49d1_2557,
        count: 49,
        sum: 83_952_862,
        share: (3_080_192, 5_996_633),
    },
    Worst {
        file: "blur3-ray6.pgm",
        ray: 6,
        blur: 3,
        sizes: (19, 19),
        place: (9, 9),
        bits: 0x4a13_c558,
        count: 49,
        sum: 118_632_879,
        share: (19_922_944, 39_544_293),
    },
];

fn folder() -> PathBuf {
    Path::new(env!("CARGO_MANIFEST_DIR")).join("worst")
}

fn pixel(worst: &Worst) -> Pixel {
    Pixel {
        x: worst.place.0,
        y: worst.place.1,
        value: f32::from_bits(worst.bits),
        count: worst.count,
        sum: worst.sum,
    }
}

#[test]
fn shares() {
    let mut finder = Finder::new();
    for worst in &WORST {
        let path = folder().join(worst.file);
        let file = fs::read(&path).unwrap();
        let named = Named {
            ray_radius: Some(worst.ray),
            image_upsample: Some(1),
            ..Named::default()
        };
        let frame = frames::open(&path, &file, &named, false).unwrap();
        assert_eq!((frame.image.width, frame.image.height), worst.sizes);
        let looked = look(&mut finder, frame.image, &frame.settings, &[worst.blur]).unwrap();
        let (share, found) = looked[0].1.worst.unwrap();
        assert_eq!(looked[0].1.broken, 0);
        assert_eq!(found, pixel(worst), "{}", worst.file);
        assert_eq!(share.fraction(), worst.share, "{}", worst.file);
    }
}

/// Each file of the folder is in the list, and each of the blur radii that round.
#[test]
fn all_of_them() {
    let files = fs::read_dir(folder()).unwrap();
    let mut files: Vec<_> = files.map(|file| file.unwrap().file_name()).collect();
    files.sort();
    let mut listed = WORST.map(|worst| worst.file);
    listed.sort();
    assert_eq!(files, listed);
    assert!((1..=3).all(|blur| WORST.iter().any(|worst| worst.blur == blur)));
}

/// At blur radius 3 more than half of what is allowed is used, so that the bound cannot be halved.
#[test]
fn more_than_half() {
    let halves = WORST.iter().filter(|worst| worst.blur == 3);
    let mut over = halves.map(|worst| 2 * worst.share.0 > worst.share.1);
    assert!(over.all(|over| over));
}

/// The stripes depend on x alone but for a few pixels of the first column.
#[test]
fn stripes() {
    let others = |file: &str| {
        let path = folder().join(file);
        let file = fs::read(&path).unwrap();
        let frame = frames::open(&path, &file, &Named::default(), false).unwrap();
        let rows: Vec<&[u8]> = frame.image.pixels.chunks(frame.image.width).collect();
        assert!(rows.iter().all(|row| row[1..] == rows[0][1..]));
        let other = |(y, row): (usize, &&[u8])| (row[0] != rows[0][0]).then_some((y, row[0]));
        let others: Vec<(usize, u8)> = rows.iter().enumerate().filter_map(other).collect();
        others
    };
    let few = [(9, 253), (10, 245), (11, 245), (12, 245)];
    assert_eq!(others("blur3-ray7-stripes.pgm"), few);
    assert_eq!(others("blur3-ray7-one-pixel.pgm"), [(9, 0)]);
    assert_eq!(others("blur3-ray7-short.pgm"), [(8, 5), (9, 7)]);
}

/// The same sum, and another value: a window is summed in one order, so that a frame and its mirror image differ. docs/USING.md has these.
#[test]
fn mirrored_and_turned() {
    let path = folder().join("blur3-ray7-one-pixel.pgm");
    let file = fs::read(&path).unwrap();
    let named = Named {
        ray_radius: Some(7),
        image_upsample: Some(1),
        ..Named::default()
    };
    let frame = frames::open(&path, &file, &named, false).unwrap();
    let settings = Settings {
        response_blur_radius: 3,
        ..frame.settings
    };
    let side = frame.image.width;
    let middle = |place: fn(usize, usize, usize) -> (usize, usize)| {
        let pixel = |at: usize| {
            let (x, y) = place(at % side, at / side, side);
            frame.image.pixels[y * side + x]
        };
        let pixels: Vec<u8> = (0..side * side).map(pixel).collect();
        let image = Image {
            pixels: &pixels,
            ..frame.image
        };
        let mut finder = Finder::new();
        let map = finder.response(image, &settings).unwrap();
        let window = Window::about((side / 2, side / 2), (side, side), 3);
        let sum = Whole::of(map.working, side, side, 7).sum(&window);
        (map.response[side * side / 2], sum)
    };
    let sum = 117_479_618;
    assert_eq!(middle(|x, y, _| (x, y)), (2_397_542.0, sum));
    assert_eq!(middle(|x, y, side| (side - 1 - x, y)), (2_397_543.5, sum));
    assert_eq!(middle(|x, y, _| (y, x)), (2_397_543.0, sum));
}
