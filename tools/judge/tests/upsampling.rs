//! The upsampling rule: equal pixels, a short sweep, and that the sweep goes over what it says.

use judge::upsampled::{differing, ring, sweep, PAIRS};
use judge::Detector;

#[test]
fn the_ring_holds_each_pair_once() {
    let ring = ring();
    assert_eq!(ring.len(), PAIRS);
    let mut seen = vec![false; PAIRS];
    for at in 0..PAIRS {
        let pair = usize::from(ring[at]) * 256 + usize::from(ring[(at + 1) % PAIRS]);
        assert!(!std::mem::replace(&mut seen[pair], true));
    }
}

#[test]
fn equal_pixels() {
    let mut detector = Detector::new();
    for value in 0..=255 {
        assert_eq!(differing(&mut detector, vec![value; 6], 3, 2), 0);
    }
}

#[test]
fn a_short_sweep() {
    let steps: Vec<usize> = (0..PAIRS).step_by(4_099).collect();
    let swept = sweep(&steps);
    assert_eq!((swept.fours, swept.differ), (16 * PAIRS, 0));
    assert!(swept.compared > 4 * swept.fours);
}
