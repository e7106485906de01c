//! Small frames made for a verdict, of one candidate each unless they say otherwise.

use crate::frame::{document_frame, Frame};
use crate::lists::{doubled, like_document};

/// Document 01's frame moved by a pixel, so that the saddle is beside the candidate.
fn beside_a_saddle() -> Frame {
    let all = document_frame().pixels;
    let pixel = |at: usize| all[at / 7 * 7 + (at % 7).saturating_sub(1)];
    Frame {
        threshold: 0.2f32.to_bits(),
        ..like_document(7, 7, (0..49).map(pixel).collect())
    }
}

/// A bright row through the candidate, or through the first row of them in a larger frame: the rays find it, and it is no saddle.
pub fn ridge(width: usize, height: usize) -> Frame {
    let pixel = |at: usize| if at / width == 3 { 200 } else { 0 };
    let pixels = (0..width * height).map(pixel).collect();
    like_document(width as u16, height as u16, pixels)
}

/// A saddle of four pixels, brighter by some levels on the row and darker on the column.
pub fn faint(ray: u8, levels: u8) -> Frame {
    let middle = i32::from(ray) + 2;
    let side = 2 * middle + 1;
    let pixel = |at: i32| match (at % side - middle, at / side - middle) {
        (-1 | 1, 0) => 100 + levels,
        (0, -1 | 1) => 100 - levels,
        _ => 100,
    };
    let pixels = (0..side * side).map(pixel).collect();
    Frame {
        ray,
        ..like_document(side as u16, side as u16, pixels)
    }
}

/// The least levels of a faint saddle that is not too flat, for each ray radius at which a level is not enough.
pub const ENOUGH: [(u8, u8); 6] = [(2, 2), (3, 4), (4, 9), (5, 21), (6, 41), (7, 74)];

/// One level but for these pixels, a level brighter; the candidate is at (3, 3).
pub fn brighter(places: &[(usize, usize)]) -> Frame {
    let pixel = |at: usize| 100 + u8::from(places.contains(&(at % 7, at / 7)));
    like_document(7, 7, (0..49).map(pixel).collect())
}

/// A frame for each rule that drops its candidate, in the rules' order.
pub fn dropped() -> [Frame; 5] {
    [
        brighter(&[]),
        beside_a_saddle(),
        Frame {
            least: 9,
            ..document_frame()
        },
        faint(2, 1),
        ridge(7, 7),
    ]
}

/// These at both factors, and what is just enough for a rule beside what is not: levels, neighbours, a spread times k² of 1.
pub fn reasons() -> Vec<Frame> {
    let about = |(ray, enough)| [enough - 1, enough].map(|levels| faint(ray, levels));
    let faint: Vec<Frame> = ENOUGH.into_iter().flat_map(about).collect();
    let others = dropped().into_iter().filter(|frame| !faint.contains(frame));
    let mut frames: Vec<Frame> = others.chain(dropped().map(doubled)).collect();
    frames.extend(faint);
    frames.extend([
        Frame {
            least: 8,
            ..document_frame()
        },
        brighter(&[(4, 4)]),
        brighter(&[(2, 2), (4, 4)]),
    ]);
    frames
}
