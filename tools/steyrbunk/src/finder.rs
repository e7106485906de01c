//! The finder that owns its buffers and gives back an owned list.

use crate::arch::{share, whole, MOST};
use crate::frame::Frame;
use crate::lent::{self, Answer, Image, View};
use crate::refusal::Refusal;
use crate::settings::Settings;
use crate::verdict::{Candidates, Verdicts};

/// Corners that a new list has room for; it grows when a frame has more.
const FIRST_ROOM: usize = 1_024;

/// A corner: its place in input pixels, a pixel's middle being a whole number, and its map value.
#[derive(Clone, Copy, Debug, PartialEq)]
pub struct Corner {
    pub x: f32,
    pub y: f32,
    pub strength: f32,
}

impl Corner {
    /// x, y and strength as they are printed and compared.
    pub fn bits(&self) -> [u32; 3] {
        [self.x, self.y, self.strength].map(f32::to_bits)
    }
}

/// All corners of a frame in row order, the working sizes, and what became of the candidates.
#[derive(Clone, Debug, PartialEq)]
pub struct Found {
    pub corners: Vec<Corner>,
    pub width: usize,
    pub height: usize,
    /// Nothing where the corners were read from a record, which does not keep them.
    pub verdicts: Option<Verdicts>,
}

/// Everything behind a list, at working resolution, row after row; the slices are the finder's own.
#[derive(Clone, Copy, Debug)]
pub struct Map<'a> {
    pub width: usize,
    pub height: usize,
    pub working: &'a [u8],
    pub row_cumsum: &'a [u32],
    pub col_cumsum: &'a [u32],
    pub diag_pos_cumsum: &'a [u32],
    pub diag_neg_cumsum: &'a [u32],
    pub response: &'a [f32],
    /// Empty where the map is not blurred.
    pub blur_scratch: &'a [f32],
}

impl<'a> Map<'a> {
    pub fn view(&self) -> View<'a> {
        View {
            response: self.response,
            working: self.working,
            width: self.width,
            height: self.height,
        }
    }
}

/// Finds corners in one frame after another and keeps the buffers, which are never cleared.
#[derive(Default)]
pub struct Finder {
    buffers: Buffers,
    list: Vec<f32>,
    last: Sizes,
    /// With what the last image was searched, if it was.
    searched: Option<Settings>,
    told: Verdicts,
}

/// Working sizes of the last image, and whether its map was blurred.
#[derive(Clone, Copy, Default)]
struct Sizes {
    width: usize,
    height: usize,
    blurred: bool,
}

#[derive(Default)]
struct Buffers {
    working: Vec<u8>,
    tables: [Vec<u32>; 4],
    response: Vec<f32>,
    blur_scratch: Vec<f32>,
}

/// A longer buffer in place of one that is too short; nothing of the old one is copied.
fn grow<T: Copy + Default>(buffer: &mut Vec<T>, length: usize) {
    if buffer.len() < length {
        *buffer = Vec::new();
        *buffer = vec![T::default(); length];
    }
}

impl Buffers {
    fn grow(&mut self, pixels: usize) {
        grow(&mut self.working, pixels);
        self.tables.iter_mut().for_each(|table| grow(table, pixels));
        grow(&mut self.response, pixels);
        grow(&mut self.blur_scratch, pixels);
    }

    fn lend(&mut self) -> lent::Buffers<'_> {
        let [row, col, diag_pos, diag_neg] = &mut self.tables;
        lent::Buffers {
            working: &mut self.working,
            row_cumsum: row,
            col_cumsum: col,
            diag_pos_cumsum: diag_pos,
            diag_neg_cumsum: diag_neg,
            response: &mut self.response,
            blur_scratch: &mut self.blur_scratch,
        }
    }

    fn map(&self, sizes: Sizes) -> Map<'_> {
        let pixels = sizes.width * sizes.height;
        let [row, col, diag_pos, diag_neg] = &self.tables;
        Map {
            width: sizes.width,
            height: sizes.height,
            working: &self.working[..pixels],
            row_cumsum: &row[..pixels],
            col_cumsum: &col[..pixels],
            diag_pos_cumsum: &diag_pos[..pixels],
            diag_neg_cumsum: &diag_neg[..pixels],
            response: &self.response[..pixels],
            blur_scratch: &self.blur_scratch[..if sizes.blurred { pixels } else { 0 }],
        }
    }
}

/// Working pixels of an image whose sizes are taken; else 0: the library refuses it, and nothing is allocated.
fn working_pixels(image: Image, factor: usize) -> usize {
    let (width, height) = (image.width, image.height);
    if width.max(height) > limits::SIDE || image.pixels.len() != width * height {
        return 0;
    }
    let pixels = width * height * factor * factor;
    if pixels > limits::WORKING {
        0
    } else {
        pixels
    }
}

/// Working pixels of a frame file that is taken apart, and has sizes that are taken; else 0.
fn file_pixels(file: &[u8]) -> usize {
    Frame::parse(file).map_or(0, |frame| {
        working_pixels(frame.image, frame.settings.factor())
    })
}

/// The first corners of a list.
pub(crate) fn corners(list: &[f32], count: usize) -> Vec<Corner> {
    let corner = |place: &[f32]| Corner {
        x: place[0],
        y: place[1],
        strength: place[2],
    };
    list.chunks_exact(3).take(count).map(corner).collect()
}

/// What was found, with an answer that is no refusal and whose corners all fit.
fn found(list: &[f32], answer: Answer) -> Found {
    Found {
        corners: corners(list, answer.count),
        width: answer.width,
        height: answer.height,
        verdicts: Some(answer.verdicts),
    }
}

/// The most corners of a camera whose share is too short for them.
fn overflowing(told: &[Answer]) -> Option<usize> {
    let full = |answer: &&Answer| answer.number == Answer::LIST_FULL;
    told.iter().filter(full).map(|answer| answer.count).max()
}

/// What each camera found in its share, or why it was refused.
fn by_camera(told: &[Answer], list: &[f32]) -> Vec<Result<Found, Refusal>> {
    let one = |(i, answer): (usize, &Answer)| {
        let share = &list[share(list.len(), told.len(), i)];
        answer.accepted().map(|answer| found(share, answer))
    };
    told.iter().enumerate().map(one).collect()
}

/// All corners of a map, in a list that grows until they fit.
fn listed(list: &mut Vec<f32>, view: View, settings: &Settings) -> Result<Found, Refusal> {
    loop {
        let mut answer = lent::peaks(view, settings, list).accepted()?;
        (answer.width, answer.height) = (view.width, view.height);
        if answer.number != Answer::LIST_FULL {
            return Ok(found(list, answer));
        }
        grow(list, 3 * answer.count);
    }
}

impl Finder {
    pub fn new() -> Self {
        Self::default()
    }

    /// All corners of an image.
    pub fn find(&mut self, image: Image, settings: &Settings) -> Result<Found, Refusal> {
        self.prepare(image, settings);
        grow(&mut self.list, 3 * FIRST_ROOM);
        let answer = lent::find(image, settings, self.buffers.lend(), &mut self.list);
        self.told = answer.verdicts;
        let answer = answer.accepted()?;
        self.keep(answer, settings);
        self.searched = Some(*settings);
        if answer.number == Answer::LIST_FULL {
            // The map stands already; only the list is made again.
            grow(&mut self.list, 3 * answer.count);
            return listed(&mut self.list, self.buffers.map(self.last).view(), settings);
        }
        Ok(found(&self.list, answer))
    }

    /// What each camera of an arch found, or why it was refused; `frames` has their frame files end to end. 21 where
    /// the camera count is not 2 to 8.
    pub fn arch(
        &mut self,
        cameras: usize,
        frames: &[u8],
    ) -> Result<Vec<Result<Found, Refusal>>, Refusal> {
        self.forget();
        let pixels = whole(frames).take(MOST).map(file_pixels).max();
        self.buffers.grow(pixels.unwrap_or(0));
        grow(&mut self.list, 3 * FIRST_ROOM * MOST);
        loop {
            let told = lent::arch(cameras, frames, self.buffers.lend(), &mut self.list);
            let told = &told.accepted()?[..cameras];
            let Some(most) = overflowing(told) else {
                return Ok(by_camera(told, &self.list));
            };
            grow(&mut self.list, 3 * most * cameras);
        }
    }

    /// The map of an image, which may be too small for a list; the settings that only the list uses are not looked at.
    pub fn response(&mut self, image: Image, settings: &Settings) -> Result<Map<'_>, Refusal> {
        self.prepare(image, settings);
        let answer = lent::response(image, settings, self.buffers.lend()).accepted()?;
        self.keep(answer, settings);
        Ok(self.map())
    }

    /// The list of any map and working image.
    pub fn peaks(&mut self, view: View, settings: &Settings) -> Result<Found, Refusal> {
        grow(&mut self.list, 3 * FIRST_ROOM);
        listed(&mut self.list, view, settings)
    }

    /// The map of the last image, empty if it was refused, and after an arch.
    pub fn map(&self) -> Map<'_> {
        self.buffers.map(self.last)
    }

    /// What became of the candidates of the last image: six zeros if it was refused, and after an arch or a map alone.
    pub fn verdicts(&self) -> Verdicts {
        self.told
    }

    /// The same candidates one by one, for a drawing; none if the last image was refused, and after an arch or a map alone.
    pub fn candidates(&self) -> Option<Candidates<'_>> {
        let settings = self.searched.as_ref()?;
        Some(Candidates::new(self.map().view(), settings))
    }

    /// The buffers of the last image, for a pass of the caller's own.
    pub fn lend(&mut self) -> lent::Buffers<'_> {
        self.buffers.lend()
    }

    fn forget(&mut self) {
        self.last = Sizes::default();
        self.searched = None;
        self.told = Verdicts::NONE;
    }

    fn prepare(&mut self, image: Image, settings: &Settings) {
        self.forget();
        self.buffers.grow(working_pixels(image, settings.factor()));
    }

    fn keep(&mut self, answer: Answer, settings: &Settings) {
        self.last = Sizes {
            width: answer.width,
            height: answer.height,
            blurred: settings.response_blur_radius != 0,
        };
    }
}
