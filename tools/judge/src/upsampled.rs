//! Document 01's quarter-sum against the original's float upsampling, over the space of four pixels.

use limits::SIDE;

use crate::frame::Frame;
use crate::outcome::Detector;

/// Pairs of pixels, and so the steps from one row of the sweep to the next.
pub const PAIRS: usize = 65_536;
/// Seven input rows: too few for ray 7, so that the original fills no response.
const ROWS: usize = 7;

/// A ring in which each pair of bytes stands side by side once.
pub fn ring() -> Vec<u8> {
    let mut ring = Vec::with_capacity(PAIRS);
    for a in 0..=255u8 {
        ring.push(a);
        for b in a..255 {
            ring.extend([a, b + 1]);
        }
    }
    ring
}

/// Document 01's rule for one working pixel.
fn ruled(image: &[u8], w: usize, h: usize, at: (usize, usize)) -> u8 {
    let (x, y) = (at.0 / 2, at.1 / 2);
    let (a, b) = (at.0 % 2, at.1 % 2);
    let (right, below) = ((x + 1).min(w - 1), (y + 1).min(h - 1));
    let pixel = |x: usize, y: usize| usize::from(image[y * w + x]);
    let sum = (2 - a) * (2 - b) * pixel(x, y)
        + a * (2 - b) * pixel(right, y)
        + (2 - a) * b * pixel(x, below)
        + a * b * pixel(right, below);
    ((sum + 2) / 4) as u8
}

/// How many working pixels the original upsamples otherwise than the rule.
pub fn differing(detector: &mut Detector, image: Vec<u8>, w: usize, h: usize) -> usize {
    let frame = Frame {
        width: w as u16,
        height: h as u16,
        ray: 7,
        upsampling: 2,
        blur: 0,
        mode: 0,
        suppression: 0,
        least: 0,
        threshold: 0,
        pixels: image,
    };
    let map = detector.map(&frame);
    let mut count = 0;
    for (y, row) in map.working.chunks(2 * w.max(1)).enumerate() {
        for (x, value) in row.iter().enumerate() {
            count += usize::from(*value != ruled(&frame.pixels, w, h, (x, y)));
        }
    }
    count
}

/// What a sweep went over.
#[derive(Debug, Default, PartialEq, Eq)]
pub struct Swept {
    /// Different sets of four pixels, left above, right above, left below, right below.
    pub fours: usize,
    /// Working pixels compared, those between fewer than four pixels among them.
    pub compared: usize,
    pub differ: usize,
}

/// Sweeps all upper pairs over the lower pairs that lie so many steps on in the ring.
///
/// Each row is the ring turned on by the next step, so that two rows make 65,536 fours.
pub fn sweep(steps: &[usize]) -> Swept {
    let ring = ring();
    let mut swept = Swept::default();
    let mut detector = Detector::new();
    let mut turn = 0;
    for steps in steps.chunks(ROWS - 1) {
        let mut turns = vec![turn];
        for step in steps {
            turn = (turn + step) % PAIRS;
            turns.push(turn);
        }
        for from in (0..PAIRS).step_by(SIDE - 1) {
            // One pixel more than there are pairs to cover.
            let w = SIDE.min(PAIRS - from + 1);
            let pixel = |turn: &usize, x: usize| ring[(from + x + turn) % PAIRS];
            let row = |turn| (0..w).map(move |x| pixel(turn, x));
            let image: Vec<u8> = turns.iter().flat_map(row).collect();
            swept.compared += 4 * image.len();
            swept.differ += differing(&mut detector, image, w, turns.len());
        }
        swept.fours += steps.len() * PAIRS;
    }
    swept
}
