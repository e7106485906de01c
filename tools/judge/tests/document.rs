//! The numbers that document 01 names, asked of the original.

use judge::original::{self, PeakFitMode, RadonBuffers};
use judge::{document_frame, map_refusal, mapped, printed, refusal, run, Frame, Room};

const PRINTED: &str = "7 7 1\n40400000 40400000 481C4000\n";

fn text(frame: &Frame) -> String {
    String::from_utf8(printed(&frame.bytes(), Room::PROGRAM)).unwrap()
}

fn small(width: u16, height: u16, pixels: &[u8]) -> Frame {
    let pixels = pixels.to_vec();
    Frame {
        width,
        height,
        upsampling: 2,
        pixels,
        ..document_frame()
    }
}

#[test]
fn the_frame_prints_its_two_lines() {
    let bytes = document_frame().bytes();
    assert_eq!(bytes.len(), 69);
    assert_eq!(bytes[..5], [1, 0, 0, 0, 64]);
    assert_eq!(text(&document_frame()), PRINTED);
    assert_eq!(printed(&bytes, Room::FREE), PRINTED.as_bytes());
}

#[test]
fn upsampled_rows() {
    let working = |frame| mapped(&frame).working;
    assert_eq!(working(small(2, 1, &[0, 1])), [0, 1, 1, 1, 0, 1, 1, 1]);
    assert_eq!(working(small(2, 2, &[1, 1, 0, 0]))[5], 1);
    assert_eq!(working(small(2, 2, &[0, 1, 0, 0]))[5], 0);
}

#[test]
fn responses_of_the_frame() {
    let map = mapped(&document_frame()).response;
    assert_eq!(
        [map[3 * 7 + 3], map[3 * 7 + 2], map[2 * 7 + 2]],
        [160_000.0, 40_000.0, 10_000.0]
    );
    let two = Frame {
        upsampling: 1,
        ..small(2, 2, &[9, 0, 0, 9])
    };
    assert_eq!(mapped(&two).response, [0.0; 4]);
}

#[test]
fn peak_fits() {
    let fit = |a, b, c| original::fit_peak_frac(a, b, c, PeakFitMode::Parabolic);
    assert_eq!(
        [fit(1.0, 2.0, 2.0), fit(2.0, 2.0, 1.0), fit(1.0, 2.0, 3.0)],
        [0.5, -0.5, 0.0]
    );
    // A symmetric peak gives negative zero.
    assert_eq!(fit(1.0, 2.0, 1.0).to_bits(), 0x8000_0000);
}

#[test]
fn a_blurred_row() {
    let mut map = [0.0, 3.0, 0.0];
    original::box_blur_inplace(&mut map, &mut [0.0; 3], 3, 1, 1);
    assert_eq!(map, [1.5, 1.0, 1.5]);
}

#[test]
fn neighbours_of_a_plateau() {
    let map = [1.0, 2.0, 2.0, 0.0];
    assert!(original::is_local_max(&map, (4, 1), (1, 0), 1, 2.0));
    assert!(!original::is_local_max(&map, (4, 1), (0, 0), 1, 1.0));
    assert_eq!(
        original::count_positive_neighbors(&map, (4, 1), (2, 0), 1),
        1
    );
}

/// The frame cut to its first columns and rows.
fn cut(width: usize, height: usize) -> Frame {
    let all = document_frame().pixels;
    let pixel = |at: usize| all[at / width * 7 + at % width];
    Frame {
        width: width as u16,
        height: height as u16,
        pixels: (0..width * height).map(pixel).collect(),
        ..document_frame()
    }
}

/// Document 02's fifth request, and what the original does with such frames: it finds none.
#[test]
fn too_small_frames() {
    assert_eq!(text(&cut(7, 7)), PRINTED);
    for (width, height) in [(6, 6), (6, 7), (7, 6), (1, 1), (0, 7), (7, 0), (0, 0)] {
        let small = cut(width, height);
        assert_eq!(text(&small), "refused 15\n");
        assert_eq!(map_refusal(&small, usize::MAX), None);
        let (mut buffers, params) = (RadonBuffers::default(), original::params(&small));
        let view = original::radon_response_u8(&small.pixels, width, height, &params, &mut buffers);
        assert!(original::detect_peaks_from_radon(&view, &params).is_empty());
        assert_eq!((mapped(&small).w, mapped(&small).h), (width, height));
    }
}

/// The least side for a ray, a suppression radius and an upsampling: more than twice their border in working pixels.
#[test]
fn the_least_sides() {
    for (ray, suppression, upsampling, least) in [
        (1, 1, 1, 7),
        (0, 1, 1, 7),
        (0, 0, 0, 5),
        (1, 1, 2, 4),
        (0, 1, 255, 4),
        (4, 4, 2, 10),
        (4, 4, 1, 19),
        (4, 6, 2, 12),
        (4, 6, 1, 23),
        (7, 32, 1, 81),
        (7, 32, 2, 41),
    ] {
        let answer = |width: usize, height: usize| {
            let frame = Frame {
                ray,
                suppression,
                upsampling,
                width: width as u16,
                height: height as u16,
                pixels: vec![100; width * height],
                ..document_frame()
            };
            refusal(&frame, usize::MAX)
        };
        assert_eq!(answer(least, least), None);
        assert_eq!(answer(least - 1, least), Some(15));
        assert_eq!(answer(least, least - 1), Some(15));
        assert_eq!(answer(0, 4_096), Some(15));
    }
}

#[test]
fn runs() {
    assert_eq!(text(&cut(6, 6)), "refused 15\n");
    let strict = Frame {
        threshold: 0x3F80_0000,
        ..document_frame()
    };
    assert_eq!(text(&strict), "7 7 0\n");
}

#[test]
fn sizes_and_radii() {
    let sized = |height: u16| Frame {
        width: 4_096,
        height,
        pixels: vec![0; 4_096 * height as usize],
        ..document_frame()
    };
    assert_eq!(refusal(&sized(2_048), usize::MAX), None);
    assert_eq!(refusal(&sized(2_049), usize::MAX), Some(4));
    // The least size for the greatest radii, which is more than the program has room for.
    let radii = |ray, blur, suppression| Frame {
        width: 81,
        height: 81,
        pixels: vec![100; 81 * 81],
        ray,
        blur,
        suppression,
        ..document_frame()
    };
    let answer = |frame: Frame| refusal(&frame, usize::MAX);
    let printed = printed(&radii(7, 3, 32).bytes(), Room::FREE);
    assert_eq!(printed, b"81 81 0\n");
    assert_eq!(answer(radii(8, 3, 32)), Some(5));
    assert_eq!(answer(radii(7, 4, 32)), Some(6));
    assert_eq!(answer(radii(7, 3, 33)), Some(7));
    assert_eq!(answer(radii(8, 4, 33)), Some(5));
    let nan = Frame {
        threshold: 0x7FC0_0000,
        ..document_frame()
    };
    assert_eq!(text(&nan), "refused 8\n");
}

/// The view reads a place past the row's end as one of the next row; it panics past the slice alone.
#[test]
fn a_place_past_the_row() {
    let view = original::view(&[1.0, 2.0], &[0, 0], 1, 2);
    assert_eq!(view.at(1, 0), 2.0);
}

/// In a map that is not the original's own, a NaN passes as above the floor and becomes a corner.
#[test]
fn a_value_that_is_no_number() {
    // The middle of the document's frame.
    let all = document_frame().pixels;
    let image: Vec<u8> = (0..25)
        .map(|at| all[(at / 5 + 1) * 7 + at % 5 + 1])
        .collect();
    let mut map = [0.0; 25];
    map[12] = f32::NAN;
    let settings = Frame {
        suppression: 0,
        least: 0,
        ..document_frame()
    };
    let view = original::view(&map, &image, 5, 5);
    let found = original::detect_peaks_from_radon(&view, &original::params(&settings));
    assert_eq!(found.len(), 1);
    assert!(found[0].iter().all(|number| number.is_nan()));
}

/// A board of two-pixel cells at ray 1: nine equal maxima. The saddle test compares two products
/// that are equal before rounding, so the rounding says which of them are kept.
#[test]
fn a_saddle_on_the_edge() {
    let kept = |bright: u8| {
        let pixel = |at: usize| [bright, 0][(at % 9 / 2 + at / 9 / 2) % 2];
        let pixels = (0..81).map(pixel).collect();
        let frame = Frame {
            width: 9,
            height: 9,
            pixels,
            ..document_frame()
        };
        let outcome = run(&frame);
        let inner = (3..6).flat_map(|y| (3..6).map(move |x| y * 9 + x));
        let response = outcome.map.response;
        assert!(inner.clone().all(|at| response[at] == response[30]));
        outcome.corners.len()
    };
    let five: Vec<u8> = (1..=255).filter(|bright| kept(*bright) == 5).collect();
    assert_eq!(five, [3, 6, 12, 24, 48, 96, 192]);
    assert!((1..=255).all(|bright| [4, 5].contains(&kept(bright))));
}
