//! Frames and lent buffers for the tests.
#![allow(dead_code)]

use judge::random::Random;
use judge::{document_frame, pictures, Frame, Kind};
use steyrbunk::lent::{self, Answer, Buffers};
use steyrbunk::{Image, PeakFit, Settings};

/// The settings of document 01's frame.
pub const DOCUMENT: Settings = Settings {
    ray_radius: 1,
    image_upsample: 1,
    response_blur_radius: 0,
    peak_fit: PeakFit::Parabolic,
    threshold_rel: 0.28,
    nms_radius: 1,
    min_cluster_size: 2,
};

/// A seeded picture in a frame of that size, the other fields as in document 01's.
pub fn frame(kind: Kind, width: u16, height: u16) -> Frame {
    let random = &mut Random::new(5, u64::from(width) << 16 | u64::from(height));
    Frame {
        width,
        height,
        pixels: pictures::picture(random, kind, width.into(), height.into()),
        ..document_frame()
    }
}

pub fn image(frame: &Frame) -> Image<'_> {
    Image {
        pixels: &frame.pixels,
        width: frame.width.into(),
        height: frame.height.into(),
    }
}

/// Buffers of every kind, as floats' bits where they are floats.
#[derive(Clone, Debug, PartialEq)]
pub struct Lent {
    pub working: Vec<u8>,
    pub tables: [Vec<u32>; 4],
    pub response: Vec<u32>,
    pub scratch: Vec<u32>,
    pub list: Vec<u32>,
}

impl Lent {
    /// All full of one old value, which as a float is a number like any other.
    pub fn old(pixels: usize, list: usize, old: u8) -> Lent {
        let word = u32::from_be_bytes([old; 4]);
        Lent {
            working: vec![old; pixels],
            tables: [(); 4].map(|()| vec![word; pixels]),
            response: vec![word; pixels],
            scratch: vec![word; pixels],
            list: vec![word; list],
        }
    }

    /// Lends everything to a call, and takes it back with the answer.
    pub fn lend<Told>(&mut self, call: impl FnOnce(Buffers, &mut [f32]) -> Told) -> Told {
        let floats = |words: &[u32]| {
            words
                .iter()
                .map(|word| f32::from_bits(*word))
                .collect::<Vec<f32>>()
        };
        let bits = |floats: Vec<f32>| floats.into_iter().map(f32::to_bits).collect();
        let (mut response, mut scratch) = (floats(&self.response), floats(&self.scratch));
        let mut list = floats(&self.list);
        let [row, col, diag_pos, diag_neg] = &mut self.tables;
        let buffers = Buffers {
            working: &mut self.working,
            row_cumsum: row,
            col_cumsum: col,
            diag_pos_cumsum: diag_pos,
            diag_neg_cumsum: diag_neg,
            response: &mut response,
            blur_scratch: &mut scratch,
        };
        let answer = call(buffers, &mut list);
        (self.response, self.scratch, self.list) = (bits(response), bits(scratch), bits(list));
        answer
    }

    pub fn find(&mut self, image: Image, settings: &Settings) -> Answer {
        self.lend(|buffers, list| lent::find(image, settings, buffers, list))
    }

    pub fn response(&mut self, image: Image, settings: &Settings) -> Answer {
        self.lend(|buffers, _| lent::response(image, settings, buffers))
    }

    /// Every buffer but the list shorter by one, one after the other.
    pub fn each_short(&self) -> Vec<Lent> {
        let mut all = vec![self.clone(); 7];
        all[0].working.pop();
        for table in 0..4 {
            all[1 + table].tables[table].pop();
        }
        all[5].response.pop();
        all[6].scratch.pop();
        all
    }
}
