//! The six counts: frames made for each verdict, the original's own functions place by place, refused files.

use std::collections::BTreeSet;

use judge::lists::SEED;
use judge::reasons::{brighter, dropped, faint, ridge, ENOUGH};
use judge::verdicts::NAMES;
use judge::{
    accepted, candidates, damaged, document_frame, made, make, mapped, original, reported, run,
};
use judge::{Detector, Frame, Mapped, Room, Rules, Sizes, Verdicts};

/// More frames on request: JUDGE_FRAMES=100000 cargo test --release --test verdicts
fn frames() -> u64 {
    std::env::var("JUDGE_FRAMES").map_or(2_000, |count| count.parse().unwrap())
}

/// The verdict on a frame's one candidate.
fn only(frame: &Frame) -> &'static str {
    let verdicts = run(frame).verdicts;
    assert_eq!(verdicts.iter().sum::<u64>(), 1, "one candidate");
    NAMES[verdicts.iter().position(|count| *count == 1).unwrap()]
}

#[test]
fn each_verdict_by_itself() {
    let frames = dropped().into_iter().chain([document_frame()]);
    let verdicts: Vec<&str> = frames.map(|frame| only(&frame)).collect();
    assert_eq!(verdicts, NAMES);
}

/// The least that passes a rule, beside the most that fails it.
#[test]
fn just_enough() {
    let fraction = |threshold| Frame {
        threshold,
        ..document_frame()
    };
    // 160,000 is the maximum, and so not above it.
    assert_eq!(only(&fraction(0x3F80_0000)), "not above the floor");
    assert_eq!(only(&fraction(0x3F7F_FFFF)), "kept");
    let least = |least| Frame {
        least,
        ..document_frame()
    };
    assert_eq!(only(&least(9)), "too few positive neighbours");
    assert_eq!(only(&least(8)), "kept");
}

/// A saddle by its signs at each radius. Its four pixels make a spread of 16 levels over the norm, the sum of (x² − y²)².
#[test]
fn levels_that_are_too_flat() {
    for (ray, enough) in ENOUGH {
        let k = i32::from(ray);
        let square = (-k..=k).flat_map(|y| (-k..=k).map(move |x| (x * x, y * y)));
        let disk = square.filter(|(x, y)| x + y <= k * k);
        let norm: i32 = disk.map(|(x, y)| (x - y).pow(2)).sum();
        for levels in 1..=100 {
            let flat = 16 * i32::from(levels) * k * k < norm;
            assert_eq!(flat, levels < enough, "{ray} {levels}");
            let due = if flat { "too flat" } else { "kept" };
            assert_eq!(only(&faint(ray, levels)), due, "{ray} {levels}");
        }
    }
}

/// A spread of a half and of just 1, neither of them a saddle: flat is tested first, and 1 is not below 1.
#[test]
fn flat_beside_wrong_curvature() {
    assert_eq!(only(&brighter(&[(4, 4)])), "too flat");
    assert_eq!(only(&brighter(&[(2, 2), (4, 4)])), "wrong curvature");
    assert_eq!(only(&ridge(7, 7)), "wrong curvature");
}

/// Frames that fail more rules than one.
#[test]
fn the_first_that_fails() {
    let strict = |frame: Frame| Frame {
        threshold: 0x3F80_0000,
        ..frame
    };
    let many = |frame: Frame| Frame { least: 9, ..frame };
    let [_, beaten, _, flat, wrong] = dropped();
    for frame in [beaten.clone(), flat.clone(), wrong.clone()] {
        assert_eq!(only(&strict(many(frame))), "not above the floor");
    }
    assert_eq!(only(&many(beaten)), "beaten by a neighbour");
    assert_eq!(only(&many(flat)), "too few positive neighbours");
    assert_eq!(only(&many(wrong)), "too few positive neighbours");
}

/// Candidates along a ridge, and a row below it that is a quarter as strong.
#[test]
fn candidates_are_counted() {
    assert_eq!(run(&ridge(9, 7)).verdicts, [0, 0, 0, 0, 3, 0]);
    assert_eq!(run(&ridge(9, 8)).verdicts, [3, 0, 0, 0, 3, 0]);
    let lower = Frame {
        threshold: 0.2f32.to_bits(),
        ..ridge(9, 8)
    };
    assert_eq!(run(&lower).verdicts, [0, 3, 0, 0, 3, 0]);
}

/// In a map that is lent, what is no number is not above the floor, nor is anything where the floor is none or is infinite.
#[test]
fn values_that_no_map_has() {
    let verdict = |value: f32, fraction: f32| {
        let frame = Frame {
            threshold: fraction.to_bits(),
            ..document_frame()
        };
        let mut map = mapped(&frame);
        map.response[3 * 7 + 3] = value;
        NAMES[Rules::new(&frame, &map.working, &map.response).verdict(3, 3)]
    };
    assert_eq!(verdict(160_000.0, 0.28), "kept");
    assert_eq!(verdict(f32::NAN, 0.28), "not above the floor");
    assert_eq!(verdict(f32::INFINITY, 0.28), "not above the floor");
    assert_eq!(verdict(f32::INFINITY, 0.0), "not above the floor");
}

/// The verdict by the original's own functions: every one is asked, and the first that says no counts.
fn by_the_original(frame: &Frame, map: &Mapped, floor: f32, (x, y): (usize, usize)) -> usize {
    let (sides, window, k) = ((map.w, map.h), frame.suppression.into(), frame.radius());
    let (response, image) = (&map.response, &map.working);
    let value = response[y * map.w + x];
    let positive = original::count_positive_neighbors(response, sides, (x, y), window);
    let holds = [
        value > floor,
        original::is_local_max(response, sides, (x, y), window, value),
        positive >= frame.least.into(),
        original::is_resolved(image, map.w, (x, y), k),
        original::is_saddle(image, map.w, (x, y), k),
    ];
    let failing = holds.iter().position(|holds| !holds);
    failing.unwrap_or(holds.len())
}

/// Holds the verdicts of an accepted frame against the original, place by place, and gives their counts.
fn held(frame: &Frame) -> Verdicts {
    let outcome = run(frame);
    let map = &outcome.map;
    let rules = Rules::new(frame, &map.working, &map.response);
    let values = map.response.iter().copied();
    let floor = original::floor(frame.fraction(), values.fold(f32::NEG_INFINITY, f32::max));
    let (mut counts, mut strengths) = (Verdicts::default(), Vec::new());
    for (x, y) in candidates(frame) {
        let verdict = rules.verdict(x, y);
        let original = by_the_original(frame, map, floor, (x, y));
        assert_eq!(NAMES[verdict], NAMES[original], "({x}, {y})");
        counts[verdict] += 1;
        if NAMES[verdict] == "kept" {
            strengths.push(map.response[y * map.w + x]);
        }
    }
    // Those that are kept are the original's list.
    let list: Vec<f32> = outcome.corners.iter().map(|corner| corner[2]).collect();
    assert_eq!(strengths, list);
    assert_eq!(counts, outcome.verdicts);
    let twice = 2 * frame.border();
    let all = (map.w - twice) * (map.h - twice);
    assert_eq!(counts.iter().sum::<u64>(), all as u64);
    counts
}

/// How many frames of each factor have each verdict.
fn compare(seed: u64, count: u64, sizes: Sizes) -> [[u64; 6]; 2] {
    let mut frames = [[0; 6]; 2];
    for index in 0..count {
        let frame = made(seed, index, sizes).frame;
        if accepted(&frame.bytes(), Room::FREE).is_err() {
            continue;
        }
        let counts = held(&frame);
        let shown = &mut frames[frame.factor() - 1];
        (0..6).for_each(|verdict| shown[verdict] += u64::from(counts[verdict] > 0));
    }
    frames
}

#[test]
fn frames_for_the_program() {
    let frames = compare(13, frames(), Sizes::PROGRAM);
    let few = frames.iter().flatten().any(|frames| *frames < 30);
    assert!(!few, "{frames:?}");
}

#[test]
fn larger_frames() {
    compare(14, frames() / 100, Sizes::up_to(150));
}

/// Six zeros with every refusal that a file can have, and with none else.
#[test]
fn refused_files() {
    let mut detector = Detector::new();
    let mut refusals = BTreeSet::new();
    for index in 0..2_000 {
        for file in [make(SEED, index), damaged(SEED, index)] {
            let verdicts = reported(&mut detector, &file, Room::PROGRAM);
            let refusal = accepted(&file, Room::PROGRAM).err();
            assert_eq!(verdicts == [0; 6], refusal.is_some(), "{index}");
            refusals.extend(refusal);
        }
    }
    // A file that would be answered 4 is answered 10.
    let all = [2, 3, 5, 6, 7, 8, 9, 10, 11, 12, 13, 14, 15];
    assert_eq!(refusals, BTreeSet::from(all));
}

/// A frame that is too small has a map, and no candidate.
#[test]
fn a_frame_too_small() {
    let small = ridge(7, 6);
    assert!(mapped(&small).response.iter().any(|value| *value > 0.0));
    let told = reported(&mut Detector::new(), &small.bytes(), Room::FREE);
    assert_eq!(told, [0; 6]);
}
