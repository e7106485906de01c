//! Both programs on one frame file.

use std::fmt;

use judge::{accepted, dues, original, sums, Detector, Room, TOO_SMALL};
use steyrbunk::frame::Frame;
use steyrbunk::lent::{self, Answer};
use steyrbunk::{arch, printed, Corner, Finder, Found, Map, PeakFit, Refusal, Verdict, Verdicts};

use crate::difference::{Difference, What};
use crate::gaussian::{Distances, Places};
use crate::program::Program;

/// The two programs, each with the buffers that it keeps from frame to frame.
pub struct Pair {
    theirs: Detector,
    ours: Finder,
    /// How far Gaussian places may lie apart: in working pixels, times the peak's curvature.
    pub bound: f64,
    /// The proved program, if it is held to the Rust as well.
    pub program: Option<Program>,
}

/// Both outcomes, how they differ beyond what is allowed, and how far Gaussian places lie apart.
pub struct Held {
    pub theirs: Result<Found, u32>,
    pub ours: Result<Found, Refusal>,
    pub differences: Vec<Difference>,
    pub distances: Distances,
    /// Whether there is no list to compare, for the frame is too small, and the maps were compared alone.
    pub map_alone: bool,
}

impl Held {
    /// Both lists as document 01 prints them, each under its name.
    pub fn lists(&self) -> String {
        let theirs = self.theirs.clone().map_err(Refusal::from_number);
        format!(
            "the Rust:\n{}ours:\n{}",
            printed(&theirs),
            printed(&self.ours)
        )
    }

    /// What a camera was told, beside what a single call with its frame was; and its six from a call in which its share of the list
    /// is short.
    fn with_camera(mut self, ours: Result<Found, Refusal>, told: Verdicts) -> Held {
        let (single, arch) = (printed(&self.ours), printed(&ours));
        let line = |text: &str, at| text.lines().nth(at).unwrap_or_default().to_string();
        let lines = 0..single.lines().count().max(arch.lines().count());
        let differs = |at| {
            let (single, arch) = (line(&single, at), line(&arch, at));
            (single != arch).then_some(Difference::Camera {
                line: at + 1,
                single,
                arch,
            })
        };
        self.differences.extend(lines.into_iter().find_map(differs));
        let single = verdicts_of(&self.ours);
        self.differences.extend(camera_counts(single, told));
        if told != verdicts_of(&ours) {
            let six = camera_counts(single, verdicts_of(&ours));
            self.differences.extend(six);
        }
        self.ours = ours;
        self
    }

    /// A camera whose frame is not whole: the documents alone say what it is told.
    fn refused(number: u32, ours: Result<Found, Refusal>, told: Verdicts) -> Held {
        let (theirs, answer) = (Err(number), answers(number, &ours));
        let six = counts(&theirs, &ours, told);
        Held {
            theirs,
            differences: answer.into_iter().chain(six).collect(),
            ours,
            distances: Distances::default(),
            map_alone: false,
        }
    }
}

/// What an outcome counts: six zeros with a refusal.
fn verdicts_of<E>(outcome: &Result<Found, E>) -> Verdicts {
    let found = outcome.as_ref().ok();
    found
        .and_then(|found| found.verdicts)
        .unwrap_or(Verdicts::NONE)
}

/// The verdicts of which there are not as many, with both numbers.
fn unequal(a: Verdicts, b: Verdicts) -> impl Iterator<Item = (Verdict, usize, usize)> {
    let each = Verdict::ALL.into_iter();
    each.map(move |verdict| (verdict, a.of(verdict), b.of(verdict)))
        .filter(|(_, a, b)| a != b)
}

/// Each count that is not the judge's, or with a refusal of ours not zero. Where ours takes what is to be refused nothing is due:
/// the answer differs already.
fn counts(
    theirs: &Result<Found, u32>,
    ours: &Result<Found, Refusal>,
    told: Verdicts,
) -> Vec<Difference> {
    let due = match (theirs, ours) {
        (_, Err(_)) => Verdicts::NONE,
        (Ok(_), Ok(_)) => verdicts_of(theirs),
        (Err(_), Ok(_)) => told,
    };
    let difference = |(verdict, theirs, ours)| Difference::Verdict {
        verdict,
        theirs,
        ours,
    };
    unequal(due, told).map(difference).collect()
}

/// Each count of a camera that is not a single call's.
fn camera_counts(single: Verdicts, arch: Verdicts) -> impl Iterator<Item = Difference> {
    unequal(single, arch).map(|(verdict, single, arch)| Difference::CameraVerdict {
        verdict,
        single,
        arch,
    })
}

/// Where ours is not the answer that is due; 0 where the frame is taken.
fn answers(theirs: u32, ours: &Result<Found, Refusal>) -> Option<Difference> {
    let ours = ours.as_ref().err().map_or(0, |refusal| refusal.number());
    (theirs != ours).then_some(Difference::Answer { theirs, ours })
}

impl fmt::Display for Held {
    fn fmt(&self, out: &mut fmt::Formatter<'_>) -> fmt::Result {
        match self.differences.as_slice() {
            [] => out.write_str("agreed")?,
            differences => {
                let each: Vec<String> = differences.iter().map(|each| each.to_string()).collect();
                write!(out, "DIFFERS: {}", each.join("; "))?;
            }
        }
        match &self.ours {
            Ok(found) => write!(out, ", {} corners", found.corners.len())?,
            Err(refusal) => write!(out, ", refused {}", refusal.number())?,
        }
        if self.map_alone {
            out.write_str(", too small for a list: the maps were compared")?;
        }
        let apart = self.distances.all();
        if apart.coordinates > 0 {
            let (pixels, steps) = (apart.pixels, apart.steps);
            write!(
                out,
                ", Gaussian places up to {pixels:.2e} pixels ({steps} steps) apart"
            )?;
        }
        Ok(())
    }
}

impl Pair {
    pub fn new(bound: f64) -> Pair {
        Pair {
            theirs: Detector::new(),
            ours: Finder::new(),
            bound,
            program: None,
        }
    }

    /// Each program takes the file apart for itself.
    pub fn hold(&mut self, file: &[u8]) -> Held {
        let frame = Frame::parse(file);
        let ours = frame.and_then(|frame| self.ours.find(frame.image, &frame.settings));
        // What the library told, with a refusal too; a file that is no frame never got to it.
        let told = match frame {
            Ok(_) => self.ours.verdicts(),
            Err(_) => Verdicts::NONE,
        };
        let (theirs, mut differences) = self.theirs(file, ours.is_ok());
        differences.extend(counts(&theirs, &ours, told));
        let mut distances = Distances::default();
        let mut map_alone = false;
        match (&theirs, &ours, frame) {
            (Ok(theirs), Ok(ours), Ok(frame)) => {
                let gaussian = frame.settings.peak_fit == PeakFit::Gaussian;
                let places = Places {
                    map: self.ours.map(),
                    factor: frame.settings.factor(),
                    bound: self.bound,
                };
                differences.extend(lists(&theirs.corners, &ours.corners, |theirs, ours| {
                    if gaussian {
                        places.near(theirs, ours, &mut distances)
                    } else {
                        [false; 2]
                    }
                }));
            }
            (Err(TOO_SMALL), ours, Ok(frame)) => {
                let judged = judge::Frame::parse(file).expect("a frame that was judged");
                let maps = self.maps_alone(&judged, &frame);
                map_alone = maps.is_ok();
                differences.extend(answers(TOO_SMALL, ours));
                differences.extend(maps.unwrap_or_else(|refused| vec![refused]));
            }
            _ => {
                let theirs = theirs.as_ref().err().copied().unwrap_or(0);
                differences.extend(answers(theirs, &ours));
            }
        }
        if let Some(program) = &self.program {
            let places = frame.ok().map(|frame| Places {
                map: self.ours.map(),
                factor: frame.settings.factor(),
                bound: self.bound,
            });
            let gaussian = frame.is_ok_and(|frame| frame.settings.peak_fit == PeakFit::Gaussian);
            let theirs = judge::printed_by(&mut self.theirs, file, Room::PROGRAM);
            differences.extend(program.hold(file, &theirs, places.filter(|_| gaussian)));
        }
        Held {
            theirs,
            ours,
            differences,
            distances,
            map_alone,
        }
    }

    /// How the maps of a frame differ that is too small for a list, by the map's own functions; or that ours makes none.
    fn maps_alone(
        &mut self,
        theirs: &judge::Frame,
        ours: &Frame,
    ) -> Result<Vec<Difference>, Difference> {
        let theirs = self.theirs.map(theirs);
        match self.ours.response(ours.image, &ours.settings) {
            Ok(ours) => Ok(maps(theirs, ours)),
            Err(refusal) => Err(Difference::NoMap {
                ours: refusal.number(),
            }),
        }
    }

    /// Each camera of an arch: as a single call with its frame, to the bit, and that against the Rust.
    pub fn hold_arch(&mut self, cameras: usize, frames: &[u8]) -> Vec<Held> {
        let ours = self.ours.arch(cameras, frames);
        let ours = ours.expect("a camera count that is taken");
        // Once more with room for one corner each, for what is told to those that are refused, or have more.
        let list = &mut [0.0; 3 * arch::MOST][..3 * cameras];
        let told = lent::arch(cameras, frames, self.ours.lend(), list).cameras;
        let camera = |((due, ours), told): (_, Answer)| match due {
            Ok(file) => self.hold(file).with_camera(ours, told.verdicts),
            Err(number) => Held::refused(number, ours, told.verdicts),
        };
        let dues = dues(cameras, frames).into_iter();
        dues.zip(ours).zip(told).map(camera).collect()
    }

    /// The original's list, and how its map differs from ours if there is one.
    fn theirs(&mut self, file: &[u8], mapped: bool) -> (Result<Found, u32>, Vec<Difference>) {
        let frame = match accepted(file, Room::FREE) {
            Ok(frame) => frame,
            Err(number) => return (Err(number), Vec::new()),
        };
        let theirs = self.theirs.find(&frame);
        let corner = |[x, y, strength]: [f32; 3]| Corner { x, y, strength };
        let found = Found {
            corners: theirs.corners.into_iter().map(corner).collect(),
            width: theirs.map.w,
            height: theirs.map.h,
            verdicts: Some(theirs.verdicts.map(|count| count as usize).into()),
        };
        let differences = if mapped {
            maps(theirs.map, self.ours.map())
        } else {
            Vec::new()
        };
        (Ok(found), differences)
    }
}

/// Sizes, or else the first entry of each buffer that differs.
fn maps(theirs: original::Map, ours: Map) -> Vec<Difference> {
    let sizes = ((theirs.w, theirs.h), (ours.width, ours.height));
    if sizes.0 != sizes.1 {
        let (theirs, ours) = sizes;
        return vec![Difference::Sizes { theirs, ours }];
    }
    // Where the map is not blurred the scratch is an older frame's, and ours is empty.
    let scratch = &theirs.scratch[..ours.blur_scratch.len()];
    let first = |what, theirs, ours: &[u32]| first(what, sizes.1 .0, theirs, ours);
    let [row, col, falling, rising] = theirs.tables.map(sums);
    let entries = [
        first(What::Working, bytes(theirs.working), &bytes(ours.working)),
        first(What::RowTable, row, ours.row_cumsum),
        first(What::ColumnTable, col, ours.col_cumsum),
        first(What::FallingTable, falling, ours.diag_pos_cumsum),
        first(What::RisingTable, rising, ours.diag_neg_cumsum),
        first(What::Response, bits(theirs.response), &bits(ours.response)),
        first(What::Scratch, bits(scratch), &bits(ours.blur_scratch)),
    ];
    entries.into_iter().flatten().collect()
}

fn bytes(pixels: &[u8]) -> Vec<u32> {
    pixels.iter().copied().map(u32::from).collect()
}

fn bits(values: &[f32]) -> Vec<u32> {
    values.iter().copied().map(f32::to_bits).collect()
}

/// The first entry that differs in a buffer so wide.
fn first(what: What, w: usize, theirs: Vec<u32>, ours: &[u32]) -> Option<Difference> {
    assert_eq!(theirs.len(), ours.len(), "the length of the {what}");
    let at = theirs.iter().zip(ours).position(|(a, b)| a != b)?;
    Some(Difference::Entry {
        what,
        x: at % w,
        y: at / w,
        theirs: theirs[at],
        ours: ours[at],
    })
}

/// A difference of the counts, and the first corner that differs.
fn lists(
    theirs: &[Corner],
    ours: &[Corner],
    mut near: impl FnMut(&Corner, &Corner) -> [bool; 2],
) -> Vec<Difference> {
    let mut differences = Vec::new();
    if theirs.len() != ours.len() {
        differences.push(Difference::Count {
            theirs: theirs.len(),
            ours: ours.len(),
        });
    }
    let mut pairs = theirs.iter().zip(ours).enumerate();
    let first = pairs.find_map(|(index, (theirs, ours))| {
        let [x, y] = near(theirs, ours);
        corner(index, theirs.bits(), ours.bits(), [x, y, false])
    });
    differences.extend(first.or_else(|| alone(theirs, ours)));
    differences
}

/// The corner after the last that both lists have.
fn alone(theirs: &[Corner], ours: &[Corner]) -> Option<Difference> {
    let index = theirs.len().min(ours.len());
    let corner = theirs.get(index).or(ours.get(index))?.bits();
    Some(Difference::Alone {
        index,
        theirs: theirs.len() > index,
        corner,
    })
}

/// The first number of a corner that is neither equal nor near enough.
fn corner(index: usize, theirs: [u32; 3], ours: [u32; 3], near: [bool; 3]) -> Option<Difference> {
    let wrong = |at: usize| theirs[at] != ours[at] && !near[at];
    let at = [2, 0, 1].into_iter().find(|at| wrong(*at))?;
    Some(Difference::Corner {
        index,
        what: [What::X, What::Y, What::Strength][at],
        theirs: theirs[at],
        ours: ours[at],
    })
}

#[cfg(test)]
mod tests {
    use steyrbunk::{Image, Settings};

    use super::*;

    /// Document 01's frame has one candidate.
    const KEPT: Verdicts = Verdicts {
        kept: 1,
        ..Verdicts::NONE
    };

    /// A count that is not the judge's is told by name, with both numbers; those that are equal are not.
    #[test]
    fn counts_that_differ() {
        let mut pair = Pair::new(0.0);
        let held = pair.hold(&judge::document_frame().bytes());
        assert!(held.differences.is_empty(), "{held}");
        let both = [held.theirs.ok(), held.ours.ok()].map(|found| found?.verdicts);
        assert_eq!(both, [Some(KEPT); 2]);
        let found = |six: [usize; 6]| Found {
            corners: Vec::new(),
            width: 7,
            height: 7,
            verdicts: Some(six.into()),
        };
        let six = [60, 50, 40, 30, 20, 10];
        let told = |theirs: &Result<Found, u32>, ours: [usize; 6]| {
            let six = counts(theirs, &Ok(found(ours)), ours.into());
            let each: Vec<String> = six.iter().map(Difference::to_string).collect();
            each.join("; ")
        };
        let theirs = Ok(found(six));
        assert_eq!(told(&theirs, six), "");
        assert_eq!(
            told(&theirs, [60, 50, 40, 29, 21, 10]),
            "too flat: the judge counts 30, ours 29; wrong curvature: the judge counts 20, ours 21"
        );
        // Ours takes what is to be refused: that is the difference, and no count is due.
        assert_eq!(told(&Err(15), six), "");
        // With a refusal of ours six zeros are.
        let small = Err(Refusal::FrameTooSmall);
        assert_eq!(counts(&Err(15), &small, Verdicts::NONE), []);
        assert_eq!(counts(&theirs, &small, Verdicts::NONE), []);
        let one = Difference::Verdict {
            verdict: Verdict::Kept,
            theirs: 0,
            ours: 1,
        };
        assert_eq!(one.to_string(), "kept: the judge counts 0, ours 1");
        assert_eq!(counts(&Err(15), &small, KEPT), [one.clone()]);
        assert_eq!(
            Held::refused(13, Err(Refusal::StatedLength), KEPT).differences,
            [one]
        );
    }

    /// What a camera is told must be what a single call is, every bit of it.
    #[test]
    fn a_camera_is_as_a_single_call() {
        let file = judge::document_frame().bytes();
        let mut pair = Pair::new(0.0);
        let mut camera = |ours: Result<Found, Refusal>| {
            let told = verdicts_of(&ours);
            pair.hold(&file).with_camera(ours, told).differences
        };
        let right = Found {
            corners: vec![Corner {
                x: 3.0,
                y: 3.0,
                strength: 160_000.0,
            }],
            width: 7,
            height: 7,
            verdicts: Some(KEPT),
        };
        assert_eq!(camera(Ok(right.clone())), []);
        let mut wrong = vec![right.clone(); 4];
        wrong[0].corners[0].y = f32::from_bits(0x4040_0001);
        wrong[1].corners.clear();
        wrong[2].corners.push(right.corners[0]);
        wrong[3].height = 8;
        for (wrong, line) in wrong.into_iter().zip([2, 1, 1, 1]) {
            match camera(Ok(wrong)).as_slice() {
                [Difference::Camera { line: at, .. }] => assert_eq!(*at, line),
                other => panic!("{other:?}"),
            }
        }
        // A camera that is refused has six zeros, where one was kept.
        assert_eq!(camera(Err(Refusal::Mode)).len(), 2);
        let mut slipped = right.clone();
        slipped.verdicts = Some([0, 0, 0, 2, 0, 1].into());
        let difference = Difference::CameraVerdict {
            verdict: Verdict::TooFlat,
            single: 0,
            arch: 2,
        };
        assert_eq!(
            difference.to_string(),
            "too flat: a single call counts 0, the arch 2"
        );
        assert_eq!(camera(Ok(slipped)), [difference.clone()]);
        // The six are those of a short list too.
        let told = [0, 0, 0, 2, 0, 1].into();
        let held = pair.hold(&file).with_camera(Ok(right.clone()), told);
        assert_eq!(held.differences, [difference]);
        let none = Verdicts::NONE;
        let held = Held::refused(13, Err(Refusal::StatedLength), none);
        assert_eq!(held.differences, []);
        let answer = Difference::Answer {
            theirs: 13,
            ours: 0,
        };
        assert_eq!(Held::refused(13, Ok(right), KEPT).differences, [answer]);
    }

    /// A frame that is too small for a list: what ours answers is held to 15, and its map to the Rust's.
    #[test]
    fn a_small_frame() {
        let small = judge::Frame {
            width: 6,
            blur: 1,
            pixels: (0..42).collect(),
            ..judge::document_frame()
        };
        let mut pair = Pair::new(0.0);
        let held = pair.hold(&small.bytes());
        assert_eq!(held.theirs, Err(15));
        assert_eq!(held.ours, Err(Refusal::FrameTooSmall));
        assert_eq!(
            held.to_string(),
            "agreed, refused 15, too small for a list: the maps were compared"
        );
        // A ramp has no response; another last pixel gives it one, and is seen in every buffer.
        let mut other = small.clone();
        other.pixels[41] += 1;
        let file = other.bytes();
        let frame = Frame::parse(&file).expect("a frame");
        let differences = pair.maps_alone(&small, &frame).expect("two maps");
        let named: Vec<What> = differences.iter().map(entry).collect();
        let all = [
            What::Working,
            What::RowTable,
            What::ColumnTable,
            What::FallingTable,
            What::RisingTable,
            What::Response,
            What::Scratch,
        ];
        assert_eq!(named, all);
        let mut frame = Frame::parse(&file).expect("a frame");
        frame.settings.ray_radius = 8;
        let none = pair.maps_alone(&small, &frame);
        assert_eq!(none, Err(Difference::NoMap { ours: 5 }));
        assert_eq!(
            Difference::NoMap { ours: 5 }.to_string(),
            "map: the Rust has one, our map's entry refuses with 5"
        );
    }

    fn entry(difference: &Difference) -> What {
        match difference {
            Difference::Entry { what, .. } => *what,
            other => panic!("{other}"),
        }
    }

    /// Ours that takes a frame which is too small, or refuses one which is not.
    #[test]
    fn the_least_size() {
        let found = Found {
            corners: Vec::new(),
            width: 6,
            height: 6,
            verdicts: Some(Verdicts::NONE),
        };
        let difference = answers(15, &Ok(found)).expect("another answer");
        assert_eq!(
            difference.to_string(),
            "answer: the documents refuse with 15, ours takes the frame"
        );
        let difference = answers(0, &Err(Refusal::FrameTooSmall)).expect("another answer");
        assert_eq!(
            difference.to_string(),
            "answer: the Rust takes the frame, ours refuses with 15"
        );
        assert_eq!(answers(15, &Err(Refusal::FrameTooSmall)), None);
        assert!(answers(15, &Err(Refusal::BufferTooShort)).is_some());
    }

    /// One entry changed in each buffer in turn: it is found where it stands, and named.
    #[test]
    fn each_buffer_is_read() {
        let frame = judge::Frame {
            blur: 1,
            ..judge::document_frame()
        };
        let mut theirs = Detector::new();
        let theirs = theirs.find(&frame).map;
        let settings = Settings {
            ray_radius: 1,
            image_upsample: 1,
            response_blur_radius: 1,
            ..Settings::default()
        };
        let image = Image {
            pixels: &frame.pixels,
            width: 7,
            height: 7,
        };
        let mut finder = Finder::new();
        let map = finder.response(image, &settings).expect("accepted");
        assert_eq!(maps(theirs, map), []);
        let found = |map: Map| match maps(theirs, map).as_slice() {
            [Difference::Entry {
                what, x: 6, y: 6, ..
            }] => Some(*what),
            _ => None,
        };
        macro_rules! changed {
            ($buffer:ident, $by:expr, $what:expr) => {
                let mut $buffer = map.$buffer.to_vec();
                $buffer[48] += $by;
                let $buffer = &$buffer[..];
                assert_eq!(found(Map { $buffer, ..map }), Some($what));
            };
        }
        changed!(working, 1, What::Working);
        changed!(row_cumsum, 1, What::RowTable);
        changed!(col_cumsum, 1, What::ColumnTable);
        changed!(diag_pos_cumsum, 1, What::FallingTable);
        changed!(diag_neg_cumsum, 1, What::RisingTable);
        changed!(response, 1.0, What::Response);
        changed!(blur_scratch, 1.0, What::Scratch);
    }
}
