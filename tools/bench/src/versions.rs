//! Two builds of the library, one before a change and one after it, turn by turn on the same frames and buffers.

use std::hint::black_box;

use steyrbunk::lent::Buffers;
use steyrbunk::{Finder, Image, PeakFit, Settings};

use crate::clock::{timed, NAME};
use crate::frames::Picture;
use crate::library::{Call, Library};
use crate::scalars;
use crate::table::median;

/// What is timed: the column table by itself, what it is a part of, and the list.
#[derive(Clone, Copy)]
enum Part {
    Columns,
    Rays,
    Map,
    List,
    Whole,
}

const PARTS: [(Part, &str); 5] = [
    (Part::Columns, "table down columns"),
    (Part::Rays, "tables and response"),
    (Part::Map, "map, blur 1"),
    (Part::List, "list"),
    (Part::Whole, "whole"),
];

/// The greatest frame that the program `corners` takes, before the table's sizes.
const SMALLEST: (usize, usize, u32) = (48, 48, 1);
/// Working pixels of a timed call at least: small frames are called as often as that takes.
const LEAST: usize = 1_000_000;

/// A frame, and what both builds are lent.
struct Bench<'a> {
    image: Image<'a>,
    settings: Settings,
    sides: (usize, usize),
    corners: usize,
    finder: Finder,
    list: Vec<f32>,
}

/// What a call tells, where it does: corners, width and height; and the six counts, by a library that has them.
struct Told {
    numbers: [usize; 3],
    six: Option<[usize; 6]>,
}

/// What a call left in every buffer, to the bit, and what it told.
struct Left {
    working: Vec<u8>,
    buffers: Vec<Vec<u32>>,
    list: Vec<u32>,
    told: [usize; 3],
    six: Option<[usize; 6]>,
}

impl Left {
    fn same(&self, other: &Left) -> bool {
        self.list == other.list && self.same_but_places(other)
    }

    /// Whether two calls left the same but for the places of their corners. The six counts are compared where both told them.
    fn same_but_places(&self, other: &Left) -> bool {
        let strengths = |left: &Left| -> Vec<u32> {
            let corners = left.list.chunks_exact(3);
            corners.map(|corner| corner[2]).collect()
        };
        let both = self.six.zip(other.six);
        self.told == other.told
            && both.is_none_or(|(six, others)| six == others)
            && self.working == other.working
            && self.buffers == other.buffers
            && strengths(self) == strengths(other)
            && self.list[3 * self.told[0]..] == other.list[3 * other.told[0]..]
    }
}

/// How far the places of two builds lie apart where their logarithms differ.
#[derive(Default)]
struct Places {
    coordinates: usize,
    unequal: usize,
    /// In input pixels.
    greatest: f32,
}

impl Places {
    fn take(&mut self, before: &Left, after: &Left) {
        let numbers = before.list.iter().zip(&after.list).enumerate();
        let found = numbers
            .take(3 * before.told[0])
            .filter(|(at, _)| at % 3 < 2);
        for (_, (before, after)) in found {
            self.coordinates += 1;
            self.unequal += usize::from(before != after);
            let distance = (f32::from_bits(*before) - f32::from_bits(*after)).abs();
            self.greatest = self.greatest.max(distance);
        }
    }
}

/// A call with what it reads, the slices it is lent and what it tells.
macro_rules! lend {
    ($function:expr; $($read:expr),*; $($slice:expr),*; $($told:expr),*) => {
        // SAFETY: each pointer comes with the length of the slice it was taken from, the slices that are written are
        // borrowed exclusively, and the library touches nothing beyond them.
        unsafe { ($function)($($read,)* $($slice.as_mut_ptr(), $slice.len(),)* $($told),*) }
    };
}

/// One that tells the six counts too, where the library has them.
macro_rules! lend_six {
    ($call:expr, $six:ident; $($read:expr),*; $($slice:expr),*; $($told:expr),*) => {
        match $call {
            Call::Six(function) => {
                // What no count is: the call writes each of them.
                let six = $six.insert([usize::MAX; 6]).as_mut_ptr();
                lend!(function; $($read),*; $($slice),*; $($told,)* six)
            }
            Call::Without(function) => lend!(function; $($read),*; $($slice),*; $($told),*),
        }
    };
}

impl<'a> Bench<'a> {
    fn new(image: Image<'a>, factor: u32, base: Settings) -> Self {
        let settings = Settings {
            image_upsample: factor,
            ..base
        };
        let mut finder = Finder::new();
        let found = finder.find(image, &settings).expect("an accepted frame");
        Bench {
            image,
            settings,
            sides: (found.width, found.height),
            corners: found.corners.len(),
            finder,
            // Room for one more than there are: what stands behind a list must stay.
            list: vec![0.0; 3 * (found.corners.len() + 1)],
        }
    }

    fn working(&self) -> usize {
        self.sides.0 * self.sides.1
    }

    /// Places that are judged: those at least ray + suppression + 1 from every edge.
    fn candidates(&self) -> usize {
        let twice = 2 * (self.settings.ray_radius + self.settings.nms_radius + 1) as usize;
        (self.sides.0 - twice) * (self.sides.1 - twice)
    }

    fn call(&mut self, library: &Library, part: Part) -> Told {
        let (image, s, (w, h)) = (self.image, &self.settings, self.sides);
        let (pixels, n) = (image.pixels.as_ptr(), image.pixels.len());
        let fit = s.peak_fit.number().into();
        let (mut count, mut ww, mut wh, mut six) = (0, 0, 0, None);
        let Buffers {
            working,
            row_cumsum: row,
            col_cumsum: col,
            diag_pos_cumsum: fall,
            diag_neg_cumsum: rise,
            response,
            blur_scratch: scratch,
        } = self.finder.lend();
        let number = match part {
            Part::Columns => {
                lend!(library.columns; working.as_ptr(), working.len(), w, h; col; );
                0
            }
            Part::Rays => {
                lend!(library.rays; working.as_ptr(), working.len(), w, h, s.ray_radius as usize;
                    row, col, fall, rise, response; );
                0
            }
            Part::Map => lend!(library.response;
                pixels, n, image.width, image.height, s.ray_radius, s.image_upsample, s.response_blur_radius;
                working, row, col, fall, rise, response, scratch; &mut ww, &mut wh),
            Part::List => lend_six!(library.peaks, six;
                response.as_ptr(), response.len(), working.as_ptr(), working.len(), w, h,
                s.ray_radius, s.image_upsample, s.response_blur_radius,
                fit, s.threshold_rel, s.nms_radius, s.min_cluster_size;
                self.list; &mut count),
            Part::Whole => lend_six!(library.find, six;
                pixels, n, image.width, image.height, s.ray_radius, s.image_upsample, s.response_blur_radius,
                fit, s.threshold_rel, s.nms_radius, s.min_cluster_size;
                working, row, col, fall, rise, response, scratch, self.list; &mut count, &mut ww, &mut wh),
        };
        assert_eq!(number, 0, "an accepted frame");
        Told {
            numbers: [count, ww, wh],
            six,
        }
    }

    /// Other things where a part is to write: a table that is not filled, or filled from what was there, is seen.
    fn spoil(&mut self, part: Part) {
        self.list.fill(f32::MAX);
        // The list goes by the map.
        if matches!(part, Part::List) {
            return;
        }
        let b = self.finder.lend();
        // The single passes go by the working image; map and whole make it.
        if matches!(part, Part::Map | Part::Whole) {
            b.working.fill(0xA5);
        }
        for table in [
            b.row_cumsum,
            b.col_cumsum,
            b.diag_pos_cumsum,
            b.diag_neg_cumsum,
        ] {
            table.fill(0xDEAD_BEEF);
        }
        for numbers in [b.response, b.blur_scratch] {
            numbers.fill(f32::MAX);
        }
    }

    /// What a call leaves and tells.
    fn left(&mut self, library: &Library, part: Part) -> Left {
        // An earlier part leaves a response without its blur.
        if matches!(part, Part::List) {
            self.call(library, Part::Map);
        }
        self.spoil(part);
        let Told { numbers, six } = self.call(library, part);
        if let Some(six) = six {
            assert_eq!(six.iter().sum::<usize>(), self.candidates(), "{six:?}");
            assert_eq!(six[5], numbers[0], "those that are kept are found");
        }
        let bits = |numbers: &[f32]| numbers.iter().map(|x| x.to_bits()).collect();
        let b = self.finder.lend();
        let tables = [
            b.row_cumsum,
            b.col_cumsum,
            b.diag_pos_cumsum,
            b.diag_neg_cumsum,
        ];
        let mut buffers: Vec<Vec<u32>> = tables.map(|table| table.to_vec()).into();
        buffers.extend([b.response, b.blur_scratch].map(|numbers| bits(numbers)));
        Left {
            working: b.working.to_vec(),
            buffers,
            list: bits(&self.list),
            told: numbers,
            six,
        }
    }

    /// Nanoseconds of so many calls.
    fn calls(&mut self, library: &Library, part: Part, times: usize) -> f64 {
        timed(|| {
            for _ in 0..times {
                black_box(self.call(library, part));
            }
        })
    }

    /// Both builds in turn, and the one that goes first in turn too, so that neither has the warmer caches.
    fn row(
        &mut self,
        [before, after]: &[Library; 2],
        (part, name): (Part, &str),
        repeats: usize,
        places: Option<&mut Places>,
    ) {
        let left = [before, after].map(|library| self.left(library, part));
        let same = match places {
            None => left[0].same(&left[1]),
            Some(places) => {
                // The list alone has the same places.
                if matches!(part, Part::Whole) {
                    places.take(&left[0], &left[1]);
                }
                left[0].same_but_places(&left[1])
            }
        };
        assert!(same, "both builds leave and tell the same");
        let times = LEAST.div_ceil(self.working());
        let (mut old, mut new) = (Vec::new(), Vec::new());
        for repeat in 0..repeats {
            if repeat % 2 == 0 {
                old.push(self.calls(before, part, times));
            }
            new.push(self.calls(after, part, times));
            if repeat % 2 == 1 {
                old.push(self.calls(before, part, times));
            }
        }
        let ratios: Vec<f64> = new.iter().zip(&old).map(|(new, old)| new / old).collect();
        let each = |nanoseconds: &[f64]| median(nanoseconds) / (times * self.working()) as f64;
        println!(
            "| {}x{} x{} | {}x{} | {} | {name} | {:.3} | {:.3} | {:.3} |",
            self.image.width,
            self.image.height,
            self.settings.image_upsample,
            self.sides.0,
            self.sides.1,
            self.corners,
            each(&old),
            each(&new),
            median(&ratios),
        );
    }
}

/// Which of the builds tell the six counts.
fn six_counts(libraries: &[Library; 2]) -> &'static str {
    match libraries.each_ref().map(|library| library.tells_six()) {
        [true, true] => "Both tell the six counts, which must be the same too.",
        [false, true] => "The build after tells the six counts, the one before does not.",
        [true, false] => "The build before tells the six counts, the one after does not.",
        [false, false] => "Neither tells the six counts.",
    }
}

/// The table of both builds.
pub fn times(
    libraries: &[Library; 2],
    repeats: usize,
    picture: &(String, Picture),
    sizes: &[(usize, usize, u32)],
    base: Settings,
) {
    let (name, peak_fit, window) = (&picture.0, base.peak_fit, base.nms_radius);
    // Where both builds have one logarithm, Gaussian places too must be the same.
    let differ = peak_fit == PeakFit::Gaussian && scalars::differ(libraries);
    let mut places = differ.then(Places::default);
    println!("Medians of {repeats} turns, {NAME}, one thread; picture: {name}, {peak_fit:?} peaks, suppression {window}. Both builds have the");
    println!("same frames and buffers, and before the turns must leave the same in each. The ratio is the median of the");
    println!("turns' own ratios. {}", six_counts(libraries));
    println!();
    println!("| Frame and factor | Working image | Corners | Part | Before, ns a working pixel | After | After / before |");
    println!("|---|---|---:|---|---:|---:|---:|");
    for (width, height, factor) in [SMALLEST].iter().chain(sizes).copied() {
        let pixels = picture.1.pixels(width, height);
        let image = Image {
            pixels: &pixels,
            width,
            height,
        };
        let mut bench = Bench::new(image, factor, base);
        for part in PARTS {
            let lists = matches!(part.0, Part::List | Part::Whole);
            bench.row(libraries, part, repeats, places.as_mut().filter(|_| lists));
        }
    }
    if let Some(places) = places {
        println!();
        println!(
            "The builds' logarithms differ, and so may the places: {} of {} coordinates do, by {:.2e} input pixels at most.",
            places.unequal, places.coordinates, places.greatest
        );
    }
}
