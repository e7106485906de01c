//! The maker and the lists: the same twice, whole, and with what they promise.

use std::cmp::Ordering::{self, Equal, Greater, Less};
use std::collections::BTreeSet;

use judge::lists::{list_list, map_list, program_list, List, SEED};
use judge::{accepted, damaged, made, make, map_refusal, printed_by, refusal, run};
use judge::{Detector, Frame, Room, Sizes, TOO_SMALL};

#[test]
fn the_maker_repeats_itself() {
    for index in 0..300 {
        assert_eq!(make(8, index), make(8, index));
        assert_eq!(damaged(8, index), damaged(8, index));
    }
    assert_ne!(make(8, 0), make(9, 0));
}

#[test]
fn most_frames_are_accepted_and_many_have_corners() {
    let mut detector = Detector::new();
    let (mut taken, mut cornered, mut small) = (0, 0, 0);
    for index in 0..2_000 {
        match accepted(&make(SEED, index), Room::FREE) {
            Ok(frame) => {
                taken += 1;
                cornered += usize::from(!detector.find(&frame).corners.is_empty());
            }
            Err(number) => small += usize::from(number == TOO_SMALL),
        }
    }
    let counts = (taken, cornered, small);
    assert!(taken > 1_400 && cornered > 800, "{counts:?}");
    assert!((300..500).contains(&small), "{counts:?}");
}

/// Frames whose stated size is wrong on purpose, 2 and 3, are left out.
#[test]
fn sizes_stay_within_bounds() {
    let sound = |frame: &Frame| !matches!(refusal(frame, usize::MAX), Some(2 | 3));
    for index in 0..500 {
        let frame = made(2, index, Sizes::up_to(200)).frame;
        assert!(
            !sound(&frame) || frame.width.max(frame.height) <= 200,
            "{index}"
        );
        let frame = made(2, index, Sizes::within(100)).frame;
        let (w, h) = frame.working();
        assert!(!sound(&frame) || w * h <= 100, "{index}");
    }
}

/// Buffers kept from other frames change nothing.
#[test]
fn the_fast_path_is_the_whole_one() {
    let mut detector = Detector::new();
    for index in 0..400 {
        let Ok(frame) = accepted(&make(5, index), Room::FREE) else {
            continue;
        };
        let whole = run(&frame);
        let found = detector.find(&frame);
        let map = whole.map;
        assert_eq!(
            (found.map.w, found.map.h, found.corners, found.verdicts),
            (map.w, map.h, whole.corners, whole.verdicts)
        );
        assert_eq!(
            (found.map.working, found.map.response),
            (&map.working[..], &map.response[..])
        );
        // The map alone is the same.
        let response = detector.map(&frame).response;
        assert_eq!(response, map.response);
    }
}

/// Reads a list from its start, each number once.
struct Reader<'a>(&'a [u8]);

impl<'a> Reader<'a> {
    fn bytes(&mut self, count: usize) -> &'a [u8] {
        let (part, rest) = self.0.split_at(count);
        self.0 = rest;
        part
    }

    fn word(&mut self) -> u32 {
        u32::from_be_bytes(self.bytes(4).try_into().unwrap())
    }

    fn part(&mut self) -> &'a [u8] {
        let count = self.word() as usize;
        self.bytes(count)
    }
}

fn after_line(file: &[u8]) -> Reader<'_> {
    let line = file.iter().position(|byte| *byte == b'\n').unwrap();
    assert!(line < 200 && file[..line].is_ascii());
    Reader(&file[line + 1..])
}

fn made_twice(name: &str, make: fn(u64) -> List) -> Vec<u8> {
    let file = make(SEED).file(name, SEED);
    assert!(file == make(SEED).file(name, SEED));
    file
}

#[test]
fn the_map_list() {
    let file = made_twice("map", map_list);
    assert!(file.len() < 700_000);
    let mut reader = after_line(&file);
    let (mut count, mut small) = (0, 0);
    while !reader.0.is_empty() {
        let frame = Frame::parse(reader.part()).unwrap();
        assert_eq!(map_refusal(&frame, Room::PROGRAM.pixels), None);
        small += usize::from(refusal(&frame, Room::PROGRAM.pixels) == Some(TOO_SMALL));
        let (w, h) = (reader.word() as usize, reader.word() as usize);
        assert_eq!((w, h), frame.working());
        reader.bytes(w * h * (1 + 4 * 4 + 4));
        let flag = reader.word();
        assert_eq!(flag, u32::from(frame.blur != 0 && w * h != 0));
        reader.bytes(4 * w * h * flag as usize);
        count += 1;
    }
    // Maps of frames that are too small for a list are among them.
    assert!(count >= 140 && small >= 30, "{count} {small}");
}

#[test]
fn the_corner_list() {
    let file = made_twice("list", list_list);
    assert!(file.len() < 700_000);
    let mut reader = after_line(&file);
    let (mut count, mut cornered) = (0, 0);
    // How many records have each verdict, by their factors.
    let mut records = [[0; 6]; 2];
    while !reader.0.is_empty() {
        let frame = accepted(reader.part(), Room::PROGRAM).unwrap();
        let (w, h) = (reader.word() as usize, reader.word() as usize);
        assert_eq!((w, h), frame.working());
        let corners = reader.word() as usize;
        assert!(corners <= 256);
        let verdicts = [(); 6].map(|()| reader.word() as usize);
        let twice = 2 * frame.border();
        assert_eq!(verdicts.iter().sum::<usize>(), (w - twice) * (h - twice));
        assert_eq!(verdicts[5], corners);
        let shown = &mut records[frame.factor() - 1];
        (0..6).for_each(|verdict| shown[verdict] += usize::from(verdicts[verdict] > 0));
        reader.bytes(12 * corners);
        count += 1;
        cornered += usize::from(corners > 0);
    }
    assert!(count >= 290 && cornered > 200, "{count} {cornered}");
    let few = records.iter().flatten().any(|records| *records < 50);
    assert!(!few, "{records:?}");
}

#[test]
fn the_program_list() {
    let file = made_twice("program", program_list);
    assert!(file.len() < 900_000);
    let mut reader = after_line(&file);
    let mut detector = Detector::new();
    let (mut answers, mut small) = ([0; 16], Small::default());
    while !reader.0.is_empty() {
        let (file, text) = (reader.part(), reader.part());
        assert!(file.len() <= 2_400);
        assert_eq!(printed_by(&mut detector, file, Room::PROGRAM), text);
        let full = usize::from(text.ends_with(b"list full\n"));
        answers[accepted(file, Room::PROGRAM).map_or_else(|number| number as usize, |_| full)] += 1;
        if text == b"refused 15\n" {
            small.take(&Frame::parse(file).unwrap());
        }
    }
    assert!(answers.iter().sum::<usize>() >= 500);
    // 4 needs a larger file than the program takes.
    assert_eq!(answers.iter().filter(|count| **count == 0).count(), 1);
    assert_eq!(answers[4], 0);
    assert!(answers[15] >= 90, "{answers:?}");
    small.are_of_every_kind();
}

/// What stands in the list of frames that are too small, by their factors.
#[derive(Debug, Default)]
struct Small {
    /// How width and height stand to twice the border.
    sides: BTreeSet<(usize, Ordering, Ordering)>,
    /// Which of them is 0.
    zeros: BTreeSet<(usize, bool, bool)>,
    /// Those of more pixels than the program has room for.
    over: BTreeSet<usize>,
}

impl Small {
    fn take(&mut self, frame: &Frame) {
        let (factor, (w, h), twice) = (frame.factor(), frame.working(), 2 * frame.border());
        self.sides.insert((factor, w.cmp(&twice), h.cmp(&twice)));
        self.zeros.insert((factor, w == 0, h == 0));
        if w * h > Room::PROGRAM.pixels {
            self.over.insert(factor);
        }
    }

    fn are_of_every_kind(&self) {
        for factor in [1, 2] {
            for side in [Less, Equal] {
                let one = [(factor, side, Greater), (factor, Greater, side)];
                assert!(one.iter().all(|one| self.sides.contains(one)), "{self:?}");
            }
            let zero = [(factor, true, false), (factor, false, true)];
            assert!(zero.iter().all(|one| self.zeros.contains(one)), "{self:?}");
        }
        assert!(self.over.contains(&2), "{self:?}");
    }
}
