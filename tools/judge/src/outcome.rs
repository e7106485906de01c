//! What the published Rust makes of a frame that is taken.

use crate::answers::{map_refusal, refusal};
use crate::frame::Frame;
use crate::original::{self, Map, RadonBuffers, RadonResponseView};
use crate::verdicts::{counted, Verdicts};

/// A frame's map and what is behind it, to the bit.
#[derive(Clone, Debug, PartialEq)]
pub struct Mapped {
    pub w: usize,
    pub h: usize,
    pub working: Vec<u8>,
    pub row: Vec<u32>,
    pub col: Vec<u32>,
    pub diag_pos: Vec<u32>,
    pub diag_neg: Vec<u32>,
    pub response: Vec<f32>,
    /// Nothing where the blur leaves the scratch alone.
    pub scratch: Option<Vec<f32>>,
}

/// Everything the documents name. The verdicts are the judge's own reading, over the original's map: it counts none.
#[derive(Clone, Debug, PartialEq)]
pub struct Outcome {
    pub map: Mapped,
    pub corners: Vec<[f32; 3]>,
    pub verdicts: Verdicts,
}

/// Map and list of one frame after another, in the same buffers.
#[derive(Default)]
pub struct Detector {
    buffers: RadonBuffers,
}

/// The same of the last frame; the slices are the detector's own.
pub struct Found<'a> {
    pub map: Map<'a>,
    pub corners: Vec<[f32; 3]>,
    pub verdicts: Verdicts,
}

/// What the documents refuse never reaches the original: such a frame is a mistake of the caller. A map is refused less than
/// a list is.
impl Detector {
    pub fn new() -> Self {
        Self::default()
    }

    /// The map alone, of a frame that is too small for a list too.
    pub fn map(&mut self, frame: &Frame) -> Map<'_> {
        assert_eq!(map_refusal(frame, usize::MAX), None, "a refused frame");
        self.view(frame);
        original::map(&self.buffers)
    }

    pub fn find(&mut self, frame: &Frame) -> Found<'_> {
        assert_eq!(refusal(frame, usize::MAX), None, "a refused frame");
        let params = original::params(frame);
        let corners = original::detect_peaks_from_radon(&self.view(frame), &params);
        let map = original::map(&self.buffers);
        Found {
            map,
            corners,
            verdicts: counted(frame, map.working, map.response),
        }
    }

    fn view(&mut self, frame: &Frame) -> RadonResponseView<'_> {
        let (width, height) = (frame.width as usize, frame.height as usize);
        let params = original::params(frame);
        original::radon_response_u8(&frame.pixels, width, height, &params, &mut self.buffers)
    }
}

/// The map that the original makes of a frame, in fresh buffers.
pub fn mapped(frame: &Frame) -> Mapped {
    kept(frame, Detector::new().map(frame))
}

/// All that the original makes of an accepted frame, in fresh buffers.
pub fn run(frame: &Frame) -> Outcome {
    let mut detector = Detector::new();
    let found = detector.find(frame);
    Outcome {
        map: kept(frame, found.map),
        corners: found.corners,
        verdicts: found.verdicts,
    }
}

/// A copy of what the detector holds of a frame.
fn kept(frame: &Frame, map: Map) -> Mapped {
    let [row, col, diag_pos, diag_neg] = map.tables.map(sums);
    let blurred = frame.blur != 0 && !map.response.is_empty();
    Mapped {
        w: map.w,
        h: map.h,
        working: map.working.to_vec(),
        row,
        col,
        diag_pos,
        diag_neg,
        response: map.response.to_vec(),
        scratch: blurred.then(|| map.scratch.to_vec()),
    }
}

/// A table's sums, whatever type the original keeps them in.
pub fn sums<T: Copy + TryInto<u32>>(table: &[T]) -> Vec<u32> {
    let sum = |sum: &T| (*sum).try_into().ok().expect("a sum that fits");
    table.iter().map(sum).collect()
}
