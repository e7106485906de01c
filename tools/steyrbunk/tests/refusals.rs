//! Numbered refusals leave everything as it was and have six zeros; old contents change nothing.

mod common;

use common::{frame, image, Lent, DOCUMENT};
use judge::{document_frame, mapped, Frame, Kind};
use steyrbunk::lent::{self, Answer, Buffers, View};
use steyrbunk::{arch, limits, Finder, Image, Refusal, Settings, Verdicts};

/// No count, no sizes, no verdicts.
fn refused(number: u32) -> Answer {
    Answer {
        number,
        ..Answer::default()
    }
}

/// A map.
fn sized(width: u16, height: u16) -> Answer {
    Answer {
        width: width.into(),
        height: height.into(),
        ..Answer::default()
    }
}

/// A grey frame that was searched: nothing is above the floor.
fn nothing(width: u16, height: u16, settings: &Settings) -> Answer {
    let inside = |side: u16| usize::from(side) - 2 * settings.border();
    Answer {
        verdicts: Verdicts {
            not_above: inside(width) * inside(height),
            ..Verdicts::NONE
        },
        ..sized(width, height)
    }
}

/// Both entries that take an image, over old contents that must stay; `map` where the map's entry refuses too.
fn refuses(number: u32, map: bool, image: Image, settings: &Settings, lent: &Lent) {
    let mut after = lent.clone();
    assert_eq!(after.find(image, settings), refused(number), "{settings:?}");
    assert_eq!(after, *lent, "{number} changed a buffer");
    if map {
        assert_eq!(after.response(image, settings), refused(number));
        assert_eq!(after, *lent, "{number} changed a buffer of the map");
    }
    // The finder's own buffers are never too short.
    if number != 9 {
        let mut finder = Finder::new();
        assert_eq!(
            finder.find(image, settings),
            Err(Refusal::from_number(number))
        );
        assert!(finder.map().response.is_empty());
        assert_eq!(finder.verdicts(), Verdicts::NONE);
        assert!(finder.candidates().is_none());
    }
}

/// A setting out of range, over a frame and buffers that are in order.
fn setting(number: u32, map: bool, settings: Settings) {
    let document = document_frame();
    refuses(
        number,
        map,
        image(&document),
        &settings,
        &Lent::old(49, 30, 0x5A),
    );
}

#[test]
fn sizes() {
    let lent = Lent::old(64, 9, 0x5A);
    for (width, height) in [(4_097, 0), (0, 4_097), (usize::MAX, usize::MAX), (4_097, 1)] {
        let image = Image {
            pixels: &[],
            width,
            height,
        };
        refuses(2, true, image, &DOCUMENT, &lent);
    }
    for length in [0, 48, 50] {
        let pixels = &[0; 50][..length];
        refuses(
            3,
            true,
            Image {
                pixels,
                width: 7,
                height: 7,
            },
            &DOCUMENT,
            &lent,
        );
    }
}

#[test]
fn working_pixels() {
    let lent = Lent::old(64, 9, 0x5A);
    let pixels = vec![0; 4_096 * 2_049];
    let image = Image {
        pixels: &pixels,
        width: 4_096,
        height: 2_049,
    };
    refuses(4, true, image, &DOCUMENT, &lent);
    let image = Image {
        pixels: &pixels[..2_048 * 1_025],
        width: 2_048,
        height: 1_025,
    };
    for image_upsample in [2, 3, u32::MAX] {
        let settings = Settings {
            image_upsample,
            ..DOCUMENT
        };
        refuses(4, true, image, &settings, &lent);
    }
}

#[test]
fn settings() {
    for past in [8, u32::MAX] {
        setting(
            5,
            true,
            Settings {
                ray_radius: past,
                ..DOCUMENT
            },
        );
    }
    for past in [4, u32::MAX] {
        setting(
            6,
            true,
            Settings {
                response_blur_radius: past,
                ..DOCUMENT
            },
        );
    }
    for past in [33, u32::MAX] {
        setting(
            7,
            false,
            Settings {
                nms_radius: past,
                ..DOCUMENT
            },
        );
    }
    for past in [
        f32::NAN,
        -f32::NAN,
        1.000_000_1,
        -1e-45,
        f32::INFINITY,
        f32::NEG_INFINITY,
    ] {
        setting(
            8,
            false,
            Settings {
                threshold_rel: past,
                ..DOCUMENT
            },
        );
    }
}

#[test]
fn at_the_limits() {
    let document = document_frame();
    for (ray_radius, response_blur_radius, nms_radius, side) in
        [(7, 0, 1, 19), (1, 3, 1, 7), (1, 0, 32, 69), (7, 3, 32, 81)]
    {
        let settings = Settings {
            ray_radius,
            response_blur_radius,
            nms_radius,
            ..DOCUMENT
        };
        let grey = frame(Kind::Flat, side, side);
        let mut lent = Lent::old(grey.pixels.len(), 3, 0);
        let answer = lent.find(image(&grey), &settings);
        assert_eq!(answer, nothing(side, side, &settings));
    }
    for threshold_rel in [0.0, -0.0, 1.0, f32::MIN_POSITIVE] {
        let settings = Settings {
            threshold_rel,
            ..DOCUMENT
        };
        let found = Lent::old(49, 3, 0).find(image(&document), &settings);
        assert_eq!(
            (found.number, found.count),
            (0, usize::from(threshold_rel < 1.0))
        );
    }
}

#[test]
fn one_short() {
    for (image_upsample, pixels) in [(1, 49), (2, 196)] {
        let settings = Settings {
            image_upsample,
            ..DOCUMENT
        };
        let document = document_frame();
        for short in Lent::old(pixels, 30, 0x5A).each_short() {
            refuses(9, true, image(&document), &settings, &short);
        }
        let mut enough = Lent::old(pixels, 30, 0x5A);
        assert_eq!(enough.find(image(&document), &settings).number, 0);
    }
}

/// All faults at once, then taken away from the lowest on.
#[test]
fn the_lowest_number() {
    let lent = Lent::old(0, 0, 0);
    let mut settings = Settings {
        ray_radius: 8,
        response_blur_radius: 4,
        nms_radius: 33,
        threshold_rel: f32::NAN,
        ..DOCUMENT
    };
    let long = Image {
        pixels: &[0],
        width: 4_097,
        height: 4_096,
    };
    refuses(2, true, long, &settings, &lent);
    refuses(
        3,
        true,
        Image {
            width: 4_096,
            ..long
        },
        &settings,
        &lent,
    );
    let document = document_frame();
    refuses(5, true, image(&document), &settings, &lent);
    settings.ray_radius = 7;
    refuses(6, true, image(&document), &settings, &lent);
    settings.response_blur_radius = 3;
    refuses(7, false, image(&document), &settings, &lent);
    settings.nms_radius = 32;
    refuses(8, false, image(&document), &settings, &lent);
    settings.threshold_rel = 0.5;
    refuses(15, false, image(&document), &settings, &lent);
    (settings.ray_radius, settings.nms_radius) = (1, 1);
    refuses(9, true, image(&document), &settings, &lent);
}

/// The settings of a frame.
fn settings_of(frame: &Frame) -> Settings {
    let file = frame.bytes();
    let frame = steyrbunk::frame::Frame::parse(&file);
    frame.expect("a frame file").settings
}

/// The map's own entry takes a frame, and leaves the original's map in the first entries of longer buffers.
fn has_its_map(frame: &Frame) {
    let map = mapped(frame);
    let pixels = map.w * map.h;
    let old = Lent::old(pixels + 3, 0, 0x5A);
    let mut lent = old.clone();
    let answer = lent.response(image(frame), &settings_of(frame));
    assert_eq!(answer, sized(map.w as u16, map.h as u16));
    let bits = |floats: Vec<f32>| floats.into_iter().map(f32::to_bits).collect();
    let mut expected = Lent {
        working: map.working,
        tables: [map.row, map.col, map.diag_pos, map.diag_neg],
        response: bits(map.response),
        scratch: bits(map.scratch.unwrap_or_default()),
        list: Vec::new(),
    };
    expected.working.extend(&old.working[pixels..]);
    for (table, old) in expected.tables.iter_mut().zip(&old.tables) {
        table.extend(&old[pixels..]);
    }
    expected.response.extend(&old.response[pixels..]);
    let left = expected.scratch.len();
    expected.scratch.extend(&old.scratch[left..]);
    assert_eq!(lent, expected);
}

/// Document 02's fifth request: either side at most twice the border, at both factors. One pixel more is searched.
#[test]
fn frames_that_are_too_small() {
    for (ray, suppression, upsampling, least) in [
        (1, 1, 1, 7),
        (0, 1, 1, 7),
        (0, 0, 0, 5),
        (1, 1, 2, 4),
        (0, 2, 255, 5),
        (4, 4, 2, 10),
        (4, 4, 1, 19),
        (4, 6, 2, 12),
        (4, 6, 1, 23),
        (7, 32, 1, 81),
        (7, 32, 3, 41),
    ] {
        let framed = |kind, width, height| Frame {
            ray,
            suppression,
            upsampling,
            blur: ray % 4,
            ..frame(kind, width, height)
        };
        let grey = framed(Kind::Flat, least, least);
        let settings = settings_of(&grey);
        assert_eq!(settings.least_side(), usize::from(least));
        let factor = settings.factor() as u16;
        let mut lent = Lent::old(grey.pixels.len() * usize::from(factor * factor), 30, 0x5A);
        let answer = lent.find(image(&grey), &settings);
        let side = factor * least;
        assert_eq!(answer, nothing(side, side, &settings));
        let small = least - 1;
        for (width, height) in [
            (small, small),
            (small, least),
            (least, small),
            (small, 300),
            (300, small),
            (1, least),
            (least, 1),
            (0, least),
            (least, 0),
            (0, 0),
            (4_096, 0),
            (0, 4_096),
        ] {
            let noise = framed(Kind::Random, width, height);
            // Enough for the frame, and nothing: 15 comes before 9.
            for pixels in [4 * noise.pixels.len(), 0] {
                let lent = Lent::old(pixels, 30, 0x5A);
                refuses(15, false, image(&noise), &settings, &lent);
                let nan = Settings {
                    threshold_rel: f32::NAN,
                    ..settings
                };
                refuses(8, false, image(&noise), &nan, &lent);
            }
            has_its_map(&noise);
        }
    }
}

/// The settings' type has two modes alone; the number of another one is judged before all else.
#[test]
fn modes() {
    let document = document_frame();
    for (mode, ray_radius, number) in [
        (0, 1, 0),
        (1, 1, 0),
        (2, 1, 14),
        (u32::MAX, 1, 14),
        (2, 8, 14),
    ] {
        let settings = Settings {
            ray_radius,
            ..DOCUMENT
        };
        let old = Lent::old(49, 30, 0x5A);
        let mut lent = old.clone();
        let find = |buffers: Buffers, list: &mut [f32]| {
            lent::find_by(mode, image(&document), &settings, buffers, list)
        };
        let answer = lent.lend(find);
        assert_eq!(answer.number, number);
        if number == 14 {
            assert_eq!((answer, lent), (refused(14), old));
        }
    }
}

/// Twice over buffers with different old contents: the same answer and the same written parts, and
/// the entries beyond them stay.
#[test]
fn old_contents() {
    let board = frame(Kind::Board, 60, 50);
    for (image_upsample, response_blur_radius) in [(1, 0), (1, 2), (2, 0), (2, 1)] {
        let settings = Settings {
            image_upsample,
            response_blur_radius,
            ..DOCUMENT
        };
        let pixels = 3_000 * settings.factor() * settings.factor();
        let written = |old: u8| {
            let mut lent = Lent::old(pixels + 5, 3 * 400 + 2, old);
            let answer = lent.find(image(&board), &settings);
            assert_eq!(answer.number, 0);
            let word = u32::from_be_bytes([old; 4]);
            let beyond = |words: &mut Vec<u32>, length: usize| {
                assert!(words.split_off(length).iter().all(|left| *left == word));
            };
            assert!(lent
                .working
                .split_off(pixels)
                .iter()
                .all(|left| *left == old));
            lent.tables
                .iter_mut()
                .for_each(|table| beyond(table, pixels));
            beyond(&mut lent.response, pixels);
            beyond(
                &mut lent.scratch,
                if response_blur_radius == 0 { 0 } else { pixels },
            );
            beyond(&mut lent.list, 3 * answer.count);
            (answer, lent)
        };
        assert_eq!(written(0x5A), written(0xA5));
        // A NaN as an old value, too.
        assert_eq!(written(0x5A), written(0xFF));
    }
}

/// The finder's buffers hold the frame before; a refusal between changes nothing either.
#[test]
fn one_frame_after_another() {
    let (board, noise) = (frame(Kind::Board, 60, 50), frame(Kind::Random, 90, 70));
    let settings = Settings::default();
    let fresh = Finder::new().find(image(&board), &settings);
    let mut finder = Finder::new();
    for _ in 0..2 {
        finder.find(image(&noise), &settings).expect("accepted");
        let far = Settings {
            nms_radius: 33,
            ..settings
        };
        assert_eq!(
            finder.find(image(&board), &far),
            Err(Refusal::SuppressionRadius)
        );
        let cropped = frame(Kind::Board, 60, 9);
        assert_eq!(
            finder.find(image(&cropped), &settings),
            Err(Refusal::FrameTooSmall)
        );
        assert_eq!(finder.find(image(&board), &settings), fresh);
    }
}

/// A shorter list holds the opening corners, with the same count; the rest of it stays.
#[test]
fn a_full_list() {
    let board = frame(Kind::Board, 60, 50);
    let mut whole = Lent::old(3_000, 3_000, 0);
    let all = whole.find(image(&board), &DOCUMENT);
    assert!(all.count > 3 && all.verdicts.kept == all.count);
    for length in [0, 1, 2, 3, 5, 9, 3 * all.count - 1, 3 * all.count] {
        let mut lent = Lent::old(3_000, length, 0x5A);
        let answer = lent.find(image(&board), &DOCUMENT);
        let room = length / 3;
        assert_eq!(
            answer,
            Answer {
                number: u32::from(room < all.count),
                ..all
            }
        );
        assert_eq!(lent.list[..3 * room], whole.list[..3 * room]);
        assert!(lent.list[3 * room..]
            .iter()
            .all(|left| *left == 0x5A5A_5A5A));
    }
}

#[test]
fn the_lists_own_entry() {
    let (response, working) = ([1.0; 49], [1; 49]);
    let view = View {
        response: &response,
        working: &working,
        width: 7,
        height: 7,
    };
    let asked = |view: View, settings: Settings| {
        let mut list = [0.5; 6];
        let answer = lent::peaks(view, &settings, &mut list);
        if answer.number != 0 {
            assert_eq!((answer.verdicts, list), (Verdicts::NONE, [0.5; 6]));
        }
        (answer.number, answer.count)
    };
    assert_eq!(asked(view, DOCUMENT), (0, 0));
    assert_eq!(
        asked(
            View {
                width: 8_193,
                height: 0,
                ..view
            },
            DOCUMENT
        ),
        (2, 0)
    );
    assert_eq!(
        asked(
            View {
                width: 8_192,
                height: 1_025,
                ..view
            },
            DOCUMENT
        ),
        (4, 0)
    );
    assert_eq!(
        asked(
            view,
            Settings {
                ray_radius: 8,
                ..DOCUMENT
            }
        ),
        (5, 0)
    );
    assert_eq!(
        asked(
            view,
            Settings {
                response_blur_radius: 4,
                ..DOCUMENT
            }
        ),
        (6, 0)
    );
    assert_eq!(
        asked(
            view,
            Settings {
                nms_radius: 33,
                ..DOCUMENT
            }
        ),
        (7, 0)
    );
    assert_eq!(
        asked(
            view,
            Settings {
                threshold_rel: f32::NAN,
                ..DOCUMENT
            }
        ),
        (8, 0)
    );
    let wide = Settings {
        nms_radius: 2,
        ..DOCUMENT
    };
    let sides = |width, height| View {
        width,
        height,
        ..view
    };
    for (small, settings) in [
        (view, wide),
        (sides(6, 7), DOCUMENT),
        (sides(7, 6), DOCUMENT),
        (sides(8_192, 6), DOCUMENT),
        (sides(8_192, 0), DOCUMENT),
        (sides(0, 0), DOCUMENT),
    ] {
        assert_eq!(asked(small, settings), (15, 0));
        let nan = Settings {
            threshold_rel: f32::NAN,
            ..settings
        };
        assert_eq!(asked(small, nan), (8, 0));
        // Before 9, and whatever the factor, for these sides are the map's.
        let none = View {
            response: &[],
            working: &[],
            ..small
        };
        let doubled = Settings {
            image_upsample: 2,
            ..settings
        };
        assert_eq!(asked(none, doubled), (15, 0));
    }
    assert_eq!(
        asked(
            View {
                response: &response[..48],
                ..view
            },
            DOCUMENT
        ),
        (9, 0)
    );
    assert_eq!(
        asked(
            View {
                working: &working[..48],
                ..view
            },
            DOCUMENT
        ),
        (9, 0)
    );
}

#[test]
fn numbers_and_names() {
    for number in 2..=21 {
        let refusal = Refusal::from_number(number);
        assert_ne!(refusal, Refusal::Unknown(number));
        assert_eq!(refusal.number(), number);
        assert_eq!(
            refusal.to_string(),
            format!("refused {number}: {}", refusal.sentence())
        );
    }
    for (number, limit) in [
        (2, limits::SIDE),
        (4, limits::WORKING),
        (5, limits::RAY as usize),
        (6, limits::BLUR as usize),
        (7, limits::SUPPRESSION as usize),
        (18, limits::RECORD_CORNERS),
        (21, arch::FEWEST),
        (21, arch::MOST),
    ] {
        let sentence = Refusal::from_number(number).sentence().replace(',', "");
        let said = sentence.split(' ').any(|word| word == limit.to_string());
        assert!(said, "{sentence}");
    }
    assert_eq!(Refusal::from_number(99), Refusal::Unknown(99));
    assert_eq!(Refusal::Unknown(99).number(), 99);
}
