//! The documents' refusals, written from their text alone.

use crate::frame::Frame;

/// What a caller lends: bytes of a file, working pixels, corners.
#[derive(Clone, Copy, Debug, PartialEq, Eq)]
pub struct Room {
    pub bytes: usize,
    pub pixels: usize,
    pub corners: usize,
}

impl Room {
    /// The program's room.
    pub const PROGRAM: Room = Room {
        bytes: 2_324,
        pixels: 2_304,
        corners: 256,
    };
    /// No limit beside those of the settings and sizes.
    pub const FREE: Room = Room {
        bytes: usize::MAX,
        pixels: usize::MAX,
        corners: usize::MAX,
    };
}

/// The number of a frame that is too small to judge.
pub const TOO_SMALL: u32 = 15;

/// What only the list asks for: the map's own entry does not judge it.
const OF_THE_LIST: [u32; 3] = [7, 8, TOO_SMALL];

/// Every refusal of a frame in the order in which they are judged, for room for so many working pixels, and whether it applies.
fn judged(frame: &Frame, pixels: usize) -> [(u32, bool); 9] {
    let (w, h) = frame.working();
    let fraction = frame.fraction();
    let input = frame.width as usize * frame.height as usize;
    [
        (2, frame.width.max(frame.height) as usize > limits::SIDE),
        (3, frame.pixels.len() != input),
        (4, w * h > limits::WORKING),
        (5, u32::from(frame.ray) > limits::RAY),
        (6, u32::from(frame.blur) > limits::BLUR),
        (7, u32::from(frame.suppression) > limits::SUPPRESSION),
        // Not "outside 0 to 1": NaN must be refused, negative zero must not.
        (8, !(fraction >= 0.0 && fraction <= 1.0)),
        // Document 02's, "after 8 and before 9".
        (TOO_SMALL, w.min(h) <= 2 * frame.border()),
        (9, w * h > pixels),
    ]
}

/// The first of them that applies and is asked for.
fn first(frame: &Frame, pixels: usize, asked: impl Fn(u32) -> bool) -> Option<u32> {
    let applies = |(number, yes): (u32, bool)| (yes && asked(number)).then_some(number);
    judged(frame, pixels).into_iter().find_map(applies)
}

/// What a frame is refused with: the first of 2 to 8, 15 and 9 that applies.
pub fn refusal(frame: &Frame, pixels: usize) -> Option<u32> {
    first(frame, pixels, |_| true)
}

/// The same by the map's own entry, which takes a frame however small it is: the first of 2 to 6 and 9.
pub fn map_refusal(frame: &Frame, pixels: usize) -> Option<u32> {
    first(frame, pixels, |number| !OF_THE_LIST.contains(&number))
}

/// The frame in a file if it is accepted, else the number: 10 to 14 first, then those of the frame.
pub fn accepted(file: &[u8], room: Room) -> Result<Frame, u32> {
    if file.len() > room.bytes {
        return Err(10);
    }
    let frame = Frame::parse(file)?;
    match refusal(&frame, room.pixels) {
        Some(number) => Err(number),
        None => Ok(frame),
    }
}
