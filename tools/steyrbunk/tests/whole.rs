//! Whole-size frames against the judge: sizes, radii, factors and modes, to the bit.

mod common;

use common::{frame, image};
use compare::{Pair, BOUND};
use judge::{Frame, Kind};
use steyrbunk::{Finder, PeakFit, Refusal, Settings};

/// Holds a frame against the original.
fn agrees(pair: &mut Pair, frame: &Frame) -> usize {
    let held = pair.hold(&frame.bytes());
    assert!(held.differences.is_empty(), "{held}");
    held.ours.expect("an accepted frame").corners.len()
}

/// Each ray radius at one size, with the other settings changing along.
fn every_radius(width: u16, height: u16, upsampling: u8) {
    let mut pair = Pair::new(BOUND);
    let board = frame(Kind::Board, width, height);
    for ray in 0..=7 {
        let settings = Frame {
            ray,
            upsampling,
            blur: ray % 4,
            mode: ray / 2 % 2,
            suppression: [4, 1, 2, 8, 4, 0, 32, 6][ray as usize],
            ..board.clone()
        };
        agrees(&mut pair, &settings);
    }
}

#[test]
fn factor_one() {
    every_radius(4_096, 2_048, 1);
}

#[test]
fn factor_two() {
    every_radius(2_048, 1_024, 2);
}

#[test]
fn other_shapes() {
    let mut pair = Pair::new(BOUND);
    for (width, height) in [
        (2_048, 4_096),
        (4_096, 7),
        (7, 4_096),
        (640, 480),
        (1_283, 957),
    ] {
        for kind in [Kind::Board45, Kind::Plateau, Kind::Random] {
            agrees(&mut pair, &frame(kind, width, height));
        }
    }
}

/// Refused, 15; the maps are the same, through the map's own functions.
#[test]
fn too_small_for_a_list() {
    let mut pair = Pair::new(BOUND);
    let sides = [0, 1, 6].map(|side| [(side, 4_096), (4_096, side), (side, 7), (side, side)]);
    for (width, height) in sides.concat() {
        for (upsampling, blur) in [(1, 0), (2, 0), (1, 3), (2, 1)] {
            let small = Frame {
                upsampling,
                blur,
                // At factor 2 the border is that of twice the side.
                suppression: if upsampling == 1 { 1 } else { 4 },
                ..frame(Kind::Random, width, height)
            };
            let held = pair.hold(&small.bytes());
            assert!(held.differences.is_empty() && held.map_alone, "{held}");
            assert_eq!(held.ours, Err(Refusal::FrameTooSmall));
        }
    }
}

/// Far more corners than a first list has room for.
#[test]
fn a_long_list() {
    let mut pair = Pair::new(BOUND);
    let noisy = Frame {
        suppression: 0,
        least: 0,
        threshold: 0,
        mode: 1,
        ..frame(Kind::Random, 500, 400)
    };
    assert!(agrees(&mut pair, &noisy) > 10_000);
}

#[test]
fn made_frames() {
    let mut pair = Pair::new(BOUND);
    for index in 0..1_000 {
        let held = pair.hold(&judge::make(21, index));
        assert!(held.differences.is_empty(), "index {index}: {held}");
    }
}

/// The map's own entry and the list's give what the whole call gives.
#[test]
fn three_entries() {
    let board = frame(Kind::Board, 640, 480);
    let settings = Settings::default();
    let mut whole = Finder::new();
    let found = whole.find(image(&board), &settings).expect("accepted");
    assert!(!found.corners.is_empty());
    let mut parts = Finder::new();
    let anything = Settings {
        nms_radius: 33,
        threshold_rel: f32::NAN,
        min_cluster_size: u32::MAX,
        peak_fit: PeakFit::Parabolic,
        ..settings
    };
    let map = parts.response(image(&board), &anything).expect("a map");
    assert_eq!(map.working, whole.map().working);
    assert_eq!(map.row_cumsum, whole.map().row_cumsum);
    assert_eq!(map.col_cumsum, whole.map().col_cumsum);
    assert_eq!(map.diag_pos_cumsum, whole.map().diag_pos_cumsum);
    assert_eq!(map.diag_neg_cumsum, whole.map().diag_neg_cumsum);
    assert_eq!(map.response, whole.map().response);
    assert_eq!(map.blur_scratch, whole.map().blur_scratch);
    let list = Finder::new().peaks(map.view(), &settings).expect("a list");
    assert_eq!(list, found);
}
