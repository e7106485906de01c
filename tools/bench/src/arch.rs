//! An arch in one call beside its single calls: the same frames, buffers and shares of the list.

use steyrbunk::arch::{join, share, MOST};
use steyrbunk::frame::{bytes, Frame};
use steyrbunk::lent::{self, Answer};
use steyrbunk::{Finder, Image, Settings};

use crate::clock::{timed, NAME};
use crate::frames::Picture;
use crate::table::median;

/// Width, height and factor; the first is the greatest that the program `corners` takes.
const FRAMES: [(usize, usize, u32); 4] =
    [(48, 48, 1), (640, 480, 1), (640, 480, 2), (1_280, 960, 2)];
const CAMERAS: [usize; 3] = [2, 4, 8];
/// Corners that each camera has room for.
const ROOM: usize = 2_048;
/// Working pixels of a timed call at least: small frames are called as often as that takes.
const LEAST: usize = 200_000;

/// One frame for each camera, and what both ways are lent.
struct Arch {
    files: Vec<Vec<u8>>,
    frames: Vec<u8>,
    finder: Finder,
    list: Vec<f32>,
}

impl Arch {
    fn new(cameras: usize, frame: &Frame) -> Arch {
        let file = bytes(frame).expect("a frame that a file has room for");
        let mut finder = Finder::new();
        finder.find(frame.image, &frame.settings).expect("accepted");
        Arch {
            frames: join(&vec![file.clone(); cameras]),
            files: vec![file; cameras],
            finder,
            list: vec![0.0; 3 * ROOM * cameras],
        }
    }

    fn at_once(&mut self) -> [Answer; MOST] {
        let (cameras, lent) = (self.files.len(), self.finder.lend());
        lent::arch(cameras, &self.frames, lent, &mut self.list).cameras
    }

    fn one_by_one(&mut self) -> [Answer; MOST] {
        let mut told = [Answer::default(); MOST];
        let (numbers, cameras) = (self.list.len(), self.files.len());
        for (i, file) in self.files.iter().enumerate() {
            let Frame { image, settings } = Frame::parse(file).expect("a frame");
            let list = &mut self.list[share(numbers, cameras, i)];
            told[i] = lent::find(image, &settings, self.finder.lend(), list);
        }
        told
    }

    /// What a way tells of each camera, and the list that it leaves.
    fn outcome(&mut self, way: Way) -> (Vec<Answer>, Vec<u32>) {
        self.list.fill(-1.0);
        let told = way(self)[..self.files.len()].to_vec();
        (told, self.list.iter().map(|x| x.to_bits()).collect())
    }
}

type Way = fn(&mut Arch) -> [Answer; MOST];

/// Nanoseconds of so many calls.
fn calls(arch: &mut Arch, way: Way, times: usize) -> f64 {
    timed(|| {
        for _ in 0..times {
            std::hint::black_box(way(arch));
        }
    })
}

fn least(times: &[f64]) -> f64 {
    times.iter().copied().fold(f64::INFINITY, f64::min)
}

/// Both ways in turn, and the one that goes first in turn too, so that neither has the warmer caches.
fn row(cameras: usize, frame: &Frame, repeats: usize) -> String {
    let mut arch = Arch::new(cameras, frame);
    let (told, list) = arch.outcome(Arch::at_once);
    let same = arch.outcome(Arch::one_by_one) == (told.clone(), list);
    assert!(same, "an arch is as its single calls");
    assert!(told.iter().all(|answer| answer.number == Answer::COMPLETE));
    let pixels = cameras * told[0].width * told[0].height;
    let times = LEAST.div_ceil(pixels);
    let (mut ours, mut singles) = (Vec::new(), Vec::new());
    for repeat in 0..repeats {
        if repeat % 2 == 0 {
            ours.push(calls(&mut arch, Arch::at_once, times));
        }
        singles.push(calls(&mut arch, Arch::one_by_one, times));
        if repeat % 2 == 1 {
            ours.push(calls(&mut arch, Arch::at_once, times));
        }
    }
    let ratios: Vec<f64> = ours.iter().zip(&singles).map(|(a, b)| a / b).collect();
    let each = |nanoseconds: &[f64]| median(nanoseconds) / (times * pixels) as f64;
    format!(
        "| {}x{} x{} | {cameras} | {} | {:.3} | {:.3} | {:.4} | {:.4} |",
        frame.image.width,
        frame.image.height,
        frame.settings.image_upsample,
        told[0].count,
        each(&ours),
        each(&singles),
        median(&ratios),
        least(&ours) / least(&singles),
    )
}

/// The table of arches.
pub fn times(repeats: usize, picture: &(String, Picture), largest: usize, base: Settings) {
    let (name, window) = (&picture.0, base.nms_radius);
    println!("Medians of {repeats} turns, {NAME}, one thread; picture: {name}, suppression {window}. Both ways have the same frames,");
    println!("buffers and shares of the list. The ratio is the median of the turns' own ratios; the last column has the");
    println!("fastest arch over the fastest single calls.");
    println!();
    println!("| Frame and factor | Cameras | Corners a camera | Arch, ns a working pixel | Single calls | Arch / single calls | Fastest / fastest |");
    println!("|---|---:|---:|---:|---:|---:|---:|");
    let frames = FRAMES.iter().filter(|(width, ..)| *width <= largest);
    for (width, height, factor) in frames.copied() {
        let pixels = picture.1.pixels(width, height);
        let frame = Frame {
            image: Image {
                pixels: &pixels,
                width,
                height,
            },
            settings: Settings {
                image_upsample: factor,
                ..base
            },
        };
        for cameras in CAMERAS {
            println!("{}", row(cameras, &frame, repeats));
        }
    }
}
