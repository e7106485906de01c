//! The six verdicts: what they add up to, which candidate has which, where candidates begin, and when there are none.

mod common;

use common::{frame, image, Lent, DOCUMENT};
use judge::random::Random;
use judge::{document_frame, Kind};
use steyrbunk::frame::Frame;
use steyrbunk::lent::{self, View};
use steyrbunk::{Candidate, Candidates, Finder, Image, Refusal, Settings, Verdict, Verdicts};

/// Candidates of a frame, by document 02's text.
fn candidates(width: usize, height: usize, settings: &Settings) -> usize {
    let border = settings.ray_radius.max(1) as usize + settings.nms_radius as usize + 1;
    (width - 2 * border) * (height - 2 * border)
}

/// One candidate with that verdict, and no other.
fn only(verdict: Verdict) -> Verdicts {
    let mut counts = [0; 6];
    counts[verdict.number() as usize] = 1;
    counts.into()
}

/// Document 01's saddle moved so far to the right.
fn saddle(right: i32) -> Vec<u8> {
    let pixel = |at: i32| match (at % 7 - 3 - right) * (at / 7 - 3) {
        product if product > 0 => 200,
        0 => 100,
        _ => 0,
    };
    (0..49).map(pixel).collect()
}

/// Each of the six, of a frame that has one candidate: document 01's size and settings but for what is said.
#[test]
fn each_by_hand() {
    let edge: Vec<u8> = (0..49)
        .map(|at| [0, 200][usize::from(at % 7 > 2)])
        .collect();
    let mut speck = vec![100; 49];
    speck[4 * 7 + 4] = 101;
    let threshold = |threshold_rel| Settings {
        threshold_rel,
        ..DOCUMENT
    };
    let least = |min_cluster_size| Settings {
        min_cluster_size,
        ..DOCUMENT
    };
    for (pixels, settings, verdict) in [
        (saddle(0), DOCUMENT, Verdict::Kept),
        (saddle(0), threshold(1.0), Verdict::NotAbove),
        (saddle(0), least(8), Verdict::Kept),
        (saddle(0), least(9), Verdict::TooFew),
        (saddle(1), DOCUMENT, Verdict::NotAbove),
        (saddle(1), threshold(0.0), Verdict::Beaten),
        (edge, DOCUMENT, Verdict::WrongCurvature),
        (speck, DOCUMENT, Verdict::TooFlat),
        (vec![0; 49], threshold(0.0), Verdict::NotAbove),
    ] {
        let image = Image {
            pixels: &pixels,
            width: 7,
            height: 7,
        };
        let mut finder = Finder::new();
        let found = finder.find(image, &settings).expect("accepted");
        assert_eq!(found.verdicts, Some(only(verdict)), "{verdict:?}");
        let judged = finder.candidates().expect("searched");
        assert_eq!(judged.verdict(3, 3), verdict);
        assert_eq!((judged.columns(), judged.rows()), (3..4, 3..4));
    }
}

/// Over made frames of every kind: all candidates are counted, the kept ones are the corners, and one by one they are the same.
#[test]
fn they_add_up() {
    let (mut finder, mut sums, mut refused) = (Finder::new(), [0; 6], 0);
    for index in 0..4_000 {
        let file = judge::make(23, index);
        let Ok(Frame { image, settings }) = Frame::parse(&file) else {
            continue;
        };
        match finder.find(image, &settings) {
            Ok(found) => {
                let verdicts = found.verdicts.expect("searched");
                let all = candidates(found.width, found.height, &settings);
                assert_eq!(verdicts.total(), all, "{index}");
                assert_eq!(verdicts.kept, found.corners.len(), "{index}");
                assert_eq!(finder.verdicts(), verdicts);
                let judged = finder.candidates().expect("searched");
                assert_eq!(judged.count(), verdicts, "{index}");
                let counts = verdicts.counts().into_iter();
                sums.iter_mut().zip(counts).for_each(|(sum, n)| *sum += n);
            }
            Err(_) => {
                assert_eq!(finder.verdicts(), Verdicts::NONE, "{index}");
                assert!(finder.candidates().is_none());
                refused += 1;
            }
        }
    }
    println!("{sums:?}, {refused} refused");
    assert!(
        sums.iter().all(|sum| *sum > 200) && refused > 500,
        "{sums:?} {refused}"
    );
}

/// Place by place against the judge's own reading, which goes by the documents' text and the original's map.
#[test]
fn place_by_place() {
    let (mut finder, mut seen) = (Finder::new(), [0; 6]);
    for index in 0..1_500 {
        let Ok(frame) = judge::accepted(&judge::make(24, index), judge::Room::FREE) else {
            continue;
        };
        let map = judge::mapped(&frame);
        let rules = judge::Rules::new(&frame, &map.working, &map.response);
        let file = frame.bytes();
        let Frame { image, settings } = Frame::parse(&file).expect("a frame");
        finder.find(image, &settings).expect("accepted");
        let judged = finder.candidates().expect("searched");
        assert!(judged
            .iter()
            .map(|each| (each.x, each.y))
            .eq(judge::candidates(&frame)));
        for Candidate { x, y, verdict } in judged.iter() {
            assert_eq!(
                verdict.number() as usize,
                rules.verdict(x, y),
                "{index}: {x}, {y}"
            );
            seen[verdict.number() as usize] += 1;
        }
    }
    assert!(seen.iter().all(|n| *n > 100), "{seen:?}");
}

/// The kept candidates are the corners in row order, each about its own pixel.
#[test]
fn the_kept_are_the_corners() {
    let board = frame(Kind::Board, 120, 90);
    let settings = Settings::default();
    let mut finder = Finder::new();
    let found = finder.find(image(&board), &settings).expect("accepted");
    let judged = finder.candidates().expect("searched");
    let is_kept = |candidate: &Candidate| candidate.verdict == Verdict::Kept;
    let kept: Vec<_> = judged.iter().filter(is_kept).collect();
    assert!(kept.len() > 3 && kept.len() == found.corners.len());
    let response = finder.map().response;
    for (candidate, corner) in kept.iter().zip(&found.corners) {
        let far = |pixel: usize, place: f32| (pixel as f32 - 2.0 * place).abs();
        assert!(far(candidate.x, corner.x) <= 0.5 && far(candidate.y, corner.y) <= 0.5);
        let value = response[candidate.y * found.width + candidate.x];
        assert_eq!(value.to_bits(), corner.strength.to_bits());
    }
}

/// Kept is the number found, also where a list has no room for all or for any.
#[test]
fn short_lists() {
    let board = frame(Kind::Board, 60, 50);
    let mut whole = Lent::old(3_000, 3_000, 0);
    let all = whole.find(image(&board), &DOCUMENT);
    assert_eq!((all.number, all.verdicts.kept), (0, all.count));
    for room in 0..all.count {
        let mut lent = Lent::old(3_000, 3 * room + room % 3, 0x5A);
        let answer = lent.find(image(&board), &DOCUMENT);
        assert_eq!((answer.number, answer.verdicts), (1, all.verdicts));
    }
    // And in the finder's own list, which grows.
    let noise = judge::Frame {
        suppression: 0,
        least: 0,
        threshold: 0,
        ..frame(Kind::Random, 300, 200)
    };
    let file = noise.bytes();
    let Frame { image, settings } = Frame::parse(&file).expect("a frame");
    let mut finder = Finder::new();
    let found = finder.find(image, &settings).expect("accepted");
    let kept = found.verdicts.map(|verdicts| verdicts.kept);
    assert!(found.corners.len() > 1_024 && kept == Some(found.corners.len()));
    assert_eq!(found.verdicts, Some(finder.verdicts()));
}

/// The least frame has one candidate at factor 1, or four at factor 2; a side that is larger by so many has as many more.
#[test]
fn about_the_border() {
    for (ray_radius, nms_radius) in [(0, 0), (0, 3), (1, 1), (4, 4), (4, 6), (7, 0), (7, 32)] {
        for image_upsample in [1, 2] {
            let settings = Settings {
                ray_radius,
                nms_radius,
                image_upsample,
                threshold_rel: 0.0,
                min_cluster_size: 0,
                ..Settings::default()
            };
            let (least, factor) = (settings.least_side() as u16, settings.factor());
            for (wider, higher) in [(0, 0), (1, 0), (0, 1), (5, 0), (0, 5), (2, 3)] {
                let noise = frame(Kind::Random, least + wider, least + higher);
                let mut finder = Finder::new();
                let found = finder.find(image(&noise), &settings).expect("accepted");
                let inside = |more: u16| factor * (1 + usize::from(more));
                let verdicts = found.verdicts.expect("searched");
                assert_eq!(verdicts.total(), inside(wider) * inside(higher));
                let judged = finder.candidates().expect("searched");
                let (columns, rows) = (judged.columns(), judged.rows());
                assert_eq!((columns.len(), rows.len()), (inside(wider), inside(higher)));
                assert_eq!(columns.start, settings.border());
                assert_eq!(columns.end, found.width - settings.border());
                assert_eq!(judged.count(), verdicts);
            }
        }
    }
}

/// A map alone, an arch and a refusal leave no candidates behind, though a frame was searched before.
#[test]
fn no_candidates() {
    let (document, board) = (document_frame(), frame(Kind::Board, 40, 30));
    let far = Settings {
        nms_radius: 33,
        ..DOCUMENT
    };
    let frames = document.bytes().repeat(2);
    let mut finder = Finder::new();
    let calls: [(&dyn Fn(&mut Finder) -> bool, bool); 4] = [
        (
            &|finder| finder.response(image(&board), &DOCUMENT).is_ok(),
            true,
        ),
        (&|finder| finder.arch(2, &frames).is_ok(), true),
        (&|finder| finder.arch(9, &frames).is_ok(), false),
        (&|finder| finder.find(image(&board), &far).is_ok(), false),
    ];
    for (call, accepted) in calls {
        assert!(finder.find(image(&board), &DOCUMENT).is_ok());
        assert!(finder.candidates().is_some() && finder.verdicts().total() > 0);
        assert_eq!(call(&mut finder), accepted);
        assert!(finder.candidates().is_none());
        assert_eq!(finder.verdicts(), Verdicts::NONE);
    }
}

/// The list's own entry has the six of the whole call, for settings of its own too.
#[test]
fn the_lists_own_entry() {
    let board = frame(Kind::Board, 90, 70);
    let mut whole = Finder::new();
    for threshold_rel in [0.0, 0.28, 0.6, 1.0] {
        for min_cluster_size in [0, 2, 70, 100] {
            let settings = Settings {
                threshold_rel,
                min_cluster_size,
                ..Settings::default()
            };
            let found = whole.find(image(&board), &settings).expect("accepted");
            let view = whole.map().view();
            let list = Finder::new().peaks(view, &settings).expect("a list");
            assert_eq!(list, found);
            let answer = lent::peaks(view, &settings, &mut []);
            let verdicts = found.verdicts.expect("searched");
            assert_eq!((answer.verdicts, answer.count), (verdicts, verdicts.kept));
            assert_eq!(Candidates::new(view, &settings).count(), verdicts);
        }
    }
    let small = View {
        width: 22,
        ..whole.map().view()
    };
    let settings = Settings::default();
    let refused = Finder::new().peaks(small, &settings);
    assert_eq!(refused, Err(Refusal::FrameTooSmall));
    assert_eq!(Candidates::new(small, &settings).iter().count(), 0);
}

/// Maps that no frame has, with numbers below 0, infinite ones and what is none: the six are those of the candidates one by one, still.
#[test]
fn strange_maps() {
    let strange = [
        f32::NAN,
        f32::INFINITY,
        f32::NEG_INFINITY,
        -1.0,
        -0.0,
        0.0,
        1e-45,
        1.0,
        2.0,
        f32::MAX,
    ];
    let mut seen = [0; 6];
    for index in 0..3_000 {
        let random = &mut Random::new(25, index);
        let (width, height) = (random.range(7, 20), random.range(7, 20));
        // A few kinds of numbers in a map, so that not all of it is below an infinite floor.
        let kinds: Vec<f32> = (0..random.range(1, 4))
            .map(|_| random.pick(&strange))
            .collect();
        let response: Vec<f32> = (0..width * height).map(|_| random.pick(&kinds)).collect();
        let steps = random.pick(&[1, 2, 256]);
        let pixel = |_| random.below(steps) as u8;
        let working: Vec<u8> = (0..width * height).map(pixel).collect();
        let view = View {
            response: &response,
            working: &working,
            width,
            height,
        };
        let settings = Settings {
            threshold_rel: random.pick(&[0.0, -0.0, 0.28, 1.0]),
            nms_radius: random.pick(&[0, 1]),
            min_cluster_size: random.pick(&[0, 2, 5]),
            ..DOCUMENT
        };
        let answer = lent::peaks(view, &settings, &mut []);
        assert!(answer.number <= 1 && answer.verdicts.kept == answer.count);
        assert_eq!(
            answer.verdicts.total(),
            candidates(width, height, &settings)
        );
        assert_eq!(
            Candidates::new(view, &settings).count(),
            answer.verdicts,
            "{index}"
        );
        let counts = answer.verdicts.counts().into_iter();
        seen.iter_mut().zip(counts).for_each(|(sum, n)| *sum += n);
    }
    assert!(seen.iter().all(|n| *n > 100), "{seen:?}");
}

/// Any pixel, of any view, has a verdict: none is read that is not there.
#[test]
fn outside_the_map() {
    let (response, working) = ([1.0; 49], [1; 49]);
    let view = View {
        response: &response,
        working: &working,
        width: 7,
        height: 7,
    };
    let alone = Settings {
        ray_radius: 2,
        nms_radius: 0,
        min_cluster_size: 0,
        ..DOCUMENT
    };
    let far = [0, 1, 3, 5, 6, 7, 8, 1 << 31, 1 << 32, usize::MAX];
    for (x, y) in far.into_iter().flat_map(|x| far.map(|y| (x, y))) {
        // The window is the pixel alone, and the disk reaches two further: what passes the other rules is too flat there.
        let expected = match x.max(y) < 7 {
            true => Verdict::TooFlat,
            false => Verdict::NotAbove,
        };
        assert_eq!(Candidates::new(view, &alone).verdict(x, y), expected);
        let wide = Settings {
            nms_radius: 4,
            ..alone
        };
        assert_eq!(
            Candidates::new(view, &wide).verdict(x, y),
            Verdict::NotAbove
        );
        for (width, height, map, picture) in [
            (7, 8, 49, 49),
            (8, 7, 49, 49),
            (7, 7, 48, 49),
            (usize::MAX, usize::MAX, 49, 49),
            (usize::MAX, 2, 49, 49),
            (0, 0, 0, 0),
        ] {
            let view = View {
                response: &response[..map],
                working: &working[..picture],
                width,
                height,
            };
            let judged = Candidates::new(view, &alone).verdict(x, y);
            assert_eq!(judged, Verdict::NotAbove, "{width} {height} {x} {y}");
        }
        // Without the picture the disk lies nowhere.
        let unseen = View {
            working: &[],
            ..view
        };
        assert_eq!(Candidates::new(unseen, &alone).verdict(x, y), expected);
    }
}

/// Settings that every call refuses have a verdict too: windows and disks that lie in no map, counts that no window has.
#[test]
fn settings_past_the_limits() {
    let view = View {
        response: &[1.0; 49],
        working: &[1; 49],
        width: 7,
        height: 7,
    };
    let numbers = [0, 1, 3, 4, 8, 9, 33, 48, 49, 1 << 16, 1 << 31, u32::MAX];
    for (ray_radius, nms_radius) in numbers.into_iter().flat_map(|x| numbers.map(|y| (x, y))) {
        for min_cluster_size in numbers {
            let settings = Settings {
                ray_radius,
                nms_radius,
                min_cluster_size,
                ..DOCUMENT
            };
            // An even map over an even picture, judged in the middle.
            let expected = match nms_radius {
                4.. => Verdict::NotAbove,
                _ if min_cluster_size >= (2 * nms_radius + 1).pow(2) => Verdict::TooFew,
                _ => Verdict::TooFlat,
            };
            let judged = Candidates::new(view, &settings).verdict(3, 3);
            assert_eq!(judged, expected, "{settings:?}");
        }
    }
}

/// Numbers, names and words tell the six apart, and the counts stand in their order.
#[test]
fn names_and_numbers() {
    let counts = [10, 11, 12, 13, 14, 15];
    let verdicts = Verdicts::from(counts);
    assert_eq!((verdicts.counts(), verdicts.total()), (counts, 75));
    assert_eq!((verdicts.not_above, verdicts.kept), (10, 15));
    for (at, verdict) in Verdict::ALL.into_iter().enumerate() {
        assert_eq!(Verdict::from_number(at as u32), Some(verdict));
        assert_eq!(
            (verdict.number(), verdicts.of(verdict)),
            (at as u32, counts[at])
        );
        let same =
            |other: &&Verdict| other.name() == verdict.name() || other.words() == verdict.words();
        assert_eq!(Verdict::ALL.iter().filter(same).count(), 1);
    }
    assert_eq!(Verdict::from_number(6), None);
    assert_eq!(Verdicts::default(), Verdicts::NONE);
}
