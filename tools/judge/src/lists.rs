//! The fixed lists of answers that the repository's own programs replay without any Rust at hand.

use std::collections::BTreeMap;

use crate::answers::{accepted, map_refusal, refusal, Room, TOO_SMALL};
use crate::frame::{document_frame, Frame};
use crate::maker::{damaged, made, Made, Sizes};
use crate::outcome::{mapped, run, Mapped, Outcome};
use crate::pictures::{Kind, KINDS};
use crate::printed::printed;
use crate::reasons::reasons;
use crate::verdicts::NAMES;

/// The seed of the lists as they stand in the repository.
pub const SEED: u64 = 1;

/// How many of a list's records show each value of a trait.
pub type Summary = BTreeMap<(&'static str, String), usize>;

/// Records of one list, with what is in them.
#[derive(Default)]
pub struct List {
    pub records: Vec<Vec<u8>>,
    pub summary: Summary,
    /// What else its first line says.
    also: &'static str,
}

impl List {
    /// The whole file: one line that says how it was made, then the records.
    pub fn file(&self, name: &str, seed: u64) -> Vec<u8> {
        let count = self.records.len();
        let line = format!(
            "{name} list by tools/judge vectors, seed {seed}, {count} frames, \
             answers of chess-corners-rs at fbc3e85b96{}\n",
            self.also
        );
        let mut file = line.into_bytes();
        self.records.iter().for_each(|record| file.extend(record));
        file
    }

    fn note(&mut self, of: &'static str, value: impl ToString) {
        *self.summary.entry((of, value.to_string())).or_insert(0) += 1;
    }

    fn note_frame(&mut self, kind: &str, frame: &Frame) {
        self.note("kind", kind);
        self.note("ray", frame.ray);
        self.note("upsampling", frame.upsampling);
        self.note("blur", frame.blur);
        self.note("mode", ["parabolic", "Gaussian"][frame.mode as usize]);
        self.note("suppression", format!("{:2}", frame.suppression));
    }
}

/// A class of corner counts, named so that the classes sort.
fn span(corners: usize) -> &'static str {
    match corners {
        0 => "  0",
        1 => "  1",
        2..=9 => "  2 to 9",
        10..=99 => " 10 to 99",
        100..=256 => "100 to 256",
        _ => "more",
    }
}

fn word(record: &mut Vec<u8>, value: u32) {
    record.extend(value.to_be_bytes());
}

fn words(record: &mut Vec<u8>, values: impl IntoIterator<Item = u32>) {
    values.into_iter().for_each(|value| word(record, value));
}

/// A length and that many bytes.
fn part(record: &mut Vec<u8>, bytes: &[u8]) {
    word(record, bytes.len() as u32);
    record.extend(bytes);
}

/// A frame of the document's settings over other pixels.
pub(crate) fn like_document(width: u16, height: u16, pixels: Vec<u8>) -> Frame {
    Frame {
        width,
        height,
        pixels,
        ..document_frame()
    }
}

/// The document's frame cut to six by six.
fn cut() -> Frame {
    let all = document_frame().pixels;
    let pixels = (0..36).map(|at| all[at / 6 * 7 + at % 6]).collect();
    like_document(6, 6, pixels)
}

pub(crate) fn doubled(frame: Frame) -> Frame {
    Frame {
        upsampling: 2,
        ..frame
    }
}

/// A bright cross-bar: the greatest response there is, in the greatest window.
fn greatest() -> Frame {
    let pixels = (0..31 * 31)
        .map(|at| if at / 31 == 15 { 255 } else { 0 })
        .collect();
    Frame {
        ray: 7,
        blur: 3,
        ..like_document(31, 31, pixels)
    }
}

/// Nine equal maxima of which rounding in the saddle test drops four or five, by the level.
fn on_the_edge(bright: u8) -> Frame {
    let pixel = |at: usize| [bright, 0][(at % 9 / 2 + at / 9 / 2) % 2];
    like_document(9, 9, (0..81).map(pixel).collect())
}

/// Frames that document 01 names, the ends of the sizes, and a saddle on the edge; some have a map and are too small for a list.
fn named() -> Vec<Frame> {
    vec![
        document_frame(),
        cut(),
        doubled(document_frame()),
        Frame {
            mode: 1,
            blur: 1,
            ..document_frame()
        },
        Frame {
            threshold: 1.0f32.to_bits(),
            ..document_frame()
        },
        doubled(like_document(2, 1, vec![0, 1])),
        doubled(like_document(2, 2, vec![1, 1, 0, 0])),
        doubled(like_document(2, 2, vec![0, 1, 0, 0])),
        like_document(2, 2, vec![9, 0, 0, 9]),
        like_document(0, 0, vec![]),
        like_document(0, 5, vec![]),
        doubled(like_document(7, 0, vec![])),
        Frame {
            blur: 3,
            ..like_document(1, 1, vec![255])
        },
        greatest(),
        on_the_edge(96),
        on_the_edge(200),
    ]
}

/// Four frames of these radii: width and height each at twice the border, or one input pixel above it. Only the last is taken.
fn about_the_border(ray: u8, suppression: u8, upsampling: u8) -> [Frame; 4] {
    let radii = Frame {
        ray,
        suppression,
        upsampling,
        ..document_frame()
    };
    let at = 2 * radii.border() / radii.factor();
    let above = at + 1;
    let sized = |(width, height)| Frame {
        width: width as u16,
        height: height as u16,
        pixels: board(width, height),
        ..radii.clone()
    };
    [(at, at), (at, above), (above, at), (above, above)].map(sized)
}

/// Cells of two pixels.
fn board(width: usize, height: usize) -> Vec<u8> {
    let pixel = |at: usize| [200, 0][(at % width / 2 + at / width / 2) % 2];
    (0..width * height).map(pixel).collect()
}

/// Frames about the least size, at both factors: of document 01's frame, with ray 0, which counts as 1, without suppression, of
/// the original's own defaults, and of the greatest border of which the program has room for a frame.
fn bordered() -> Vec<Frame> {
    let radii = [(1, 1), (0, 1), (1, 0), (4, 4), (7, 15)];
    let each = |(ray, suppression)| [1, 2].map(|up| about_the_border(ray, suppression, up));
    radii.into_iter().flat_map(each).flatten().collect()
}

/// Working image, tables, response and scratch of a frame that has a map.
fn map_record(frame: &Frame, map: &Mapped) -> Vec<u8> {
    let mut record = Vec::new();
    part(&mut record, &frame.bytes());
    words(&mut record, [map.w as u32, map.h as u32]);
    record.extend(&map.working);
    for table in [&map.row, &map.col, &map.diag_pos, &map.diag_neg] {
        words(&mut record, table.iter().copied());
    }
    words(
        &mut record,
        map.response.iter().map(|value| value.to_bits()),
    );
    word(&mut record, u32::from(map.scratch.is_some()));
    words(
        &mut record,
        map.scratch.iter().flatten().map(|value| value.to_bits()),
    );
    record
}

/// The rooms of the map list in turn; small, for a record holds 25 bytes a working pixel.
const MAP_ROOMS: [usize; 8] = [36, 49, 64, 100, 121, 144, 196, 256];
/// Small frames with a map that is not all zero, for ray 0 to 7.
const MAP_RAYS: [usize; 8] = [10, 18, 18, 16, 16, 14, 10, 12];
/// Small frames with a map that is all zero.
const MAP_ZERO: usize = 20;
/// Frames that fill the program's room.
const MAP_FULL: usize = 3;

fn accepts(frame: &Frame) -> bool {
    refusal(frame, Room::PROGRAM.pixels).is_none()
}

/// Whether a frame is accepted, or would be if it were not too small for a list.
fn maps(frame: &Frame) -> bool {
    let pixels = Room::PROGRAM.pixels;
    matches!(refusal(frame, pixels), None | Some(TOO_SMALL)) && map_refusal(frame, pixels).is_none()
}

fn is_full(made: &Made) -> bool {
    let (w, h) = made.frame.working();
    maps(&made.frame) && w * h >= 2_200 && made.frame.blur != 0
}

fn is_zero(map: &Mapped) -> bool {
    map.response.iter().all(|value| *value == 0.0)
}

impl List {
    fn take_map(&mut self, kind: &str, frame: &Frame, map: &Mapped) {
        self.note_frame(kind, frame);
        self.note("map", ["zero", "not zero"][usize::from(!is_zero(map))]);
        let size = ["too small for a list", "enough"][usize::from(accepts(frame))];
        self.note("size", size);
        self.records.push(map_record(frame, map));
    }
}

pub fn map_list(seed: u64) -> List {
    let mut list = List::default();
    for frame in named() {
        list.take_map("Named", &frame, &mapped(&frame));
    }
    let whole = Sizes::within(Room::PROGRAM.pixels);
    let full = (0..).map(|index| made(seed, index, whole)).filter(is_full);
    for made in full.take(MAP_FULL) {
        let map = mapped(&made.frame);
        list.take_map(&format!("{:?}", made.kind), &made.frame, &map);
    }
    small_maps(&mut list, !seed);
    list
}

/// Small frames until each ray radius has its share.
fn small_maps(list: &mut List, seed: u64) {
    let (mut rays, mut zero) = (MAP_RAYS, MAP_ZERO);
    for (index, room) in (0..).zip(MAP_ROOMS.iter().cycle()) {
        if rays.iter().sum::<usize>() + zero == 0 {
            break;
        }
        let made = made(seed, index, Sizes::within(*room));
        if !maps(&made.frame) {
            continue;
        }
        let map = mapped(&made.frame);
        let left = if is_zero(&map) {
            &mut zero
        } else {
            &mut rays[made.frame.ray as usize]
        };
        if *left > 0 {
            *left -= 1;
            list.take_map(&format!("{:?}", made.kind), &made.frame, &map);
        }
    }
}

/// Width, height, count, verdicts and corners of an accepted frame.
fn list_record(frame: &Frame, outcome: &Outcome) -> Vec<u8> {
    let mut record = Vec::new();
    part(&mut record, &frame.bytes());
    let Outcome {
        map,
        corners,
        verdicts,
    } = outcome;
    words(
        &mut record,
        [map.w, map.h, corners.len()].map(|number| number as u32),
    );
    words(&mut record, verdicts.map(|count| count as u32));
    words(
        &mut record,
        corners.iter().flatten().map(|value| value.to_bits()),
    );
    record
}

/// Frames of each kind in the list, in the order of `KINDS`, and how many of them may be without corners.
const LIST_SHARES: [(usize, usize); 8] = [
    (90, 12),
    (50, 6),
    (60, 8),
    (40, 8),
    (25, 4),
    (12, 3),
    (6, 4),
    (3, 3),
];

/// Records at each factor in which a verdict occurs, at least.
const LIST_VERDICTS: usize = 50;
/// Working pixels of the frames that are taken for a verdict.
const LIST_ROOM: usize = 400;

fn place(kind: Kind) -> usize {
    KINDS
        .iter()
        .position(|each| *each == kind)
        .expect("KINDS holds all")
}

impl List {
    fn take_list(&mut self, kind: &str, frame: &Frame, outcome: &Outcome) {
        self.note_frame(kind, frame);
        self.note("corners", span(outcome.corners.len()));
        for verdict in occurring(outcome) {
            self.note(of_factor(frame), numbered(verdict));
        }
        self.records.push(list_record(frame, outcome));
    }

    /// Whether a frame has a verdict that is still rare at its factor.
    fn lacks(&self, frame: &Frame, outcome: &Outcome) -> bool {
        let lacking = self.lacking(of_factor(frame));
        occurring(outcome).any(|verdict| lacking.contains(&verdict))
    }

    /// The verdicts that are still rare at a factor.
    fn lacking(&self, of: &'static str) -> Vec<usize> {
        let records = |verdict| self.summary.get(&(of, numbered(verdict)));
        let rare = |verdict: &usize| records(*verdict).map_or(0, |count| *count) < LIST_VERDICTS;
        (0..NAMES.len()).filter(rare).collect()
    }
}

/// The verdicts that some candidate of a frame has.
fn occurring(outcome: &Outcome) -> impl Iterator<Item = usize> + '_ {
    (0..NAMES.len()).filter(|verdict| outcome.verdicts[*verdict] > 0)
}

/// Named so that they sort in the rules' order.
fn numbered(verdict: usize) -> String {
    format!("{verdict} {}", NAMES[verdict])
}

/// The traits that count in how many records each verdict occurs.
const OF_FACTOR: [&str; 2] = ["verdicts at factor 1", "verdicts at factor 2"];

fn of_factor(frame: &Frame) -> &'static str {
    OF_FACTOR[frame.factor() - 1]
}

pub fn list_list(seed: u64) -> List {
    let mut list = List {
        also: ", verdicts of the judge's own",
        ..List::default()
    };
    let frames = named().into_iter().chain(bordered()).chain(reasons());
    for frame in frames.filter(accepts) {
        list.take_list("Named", &frame, &run(&frame));
    }
    let mut left = LIST_SHARES;
    for index in 0.. {
        if left.iter().all(|(frames, _)| *frames == 0) {
            break;
        }
        let made = made(
            seed ^ 0x6C69_7374,
            index,
            Sizes::within(Room::PROGRAM.pixels),
        );
        let (frames, empty) = &mut left[place(made.kind)];
        if *frames == 0 || !accepts(&made.frame) {
            continue;
        }
        let outcome = run(&made.frame);
        let count = outcome.corners.len();
        if count > Room::PROGRAM.corners || count == 0 && *empty == 0 {
            continue;
        }
        *frames -= 1;
        *empty -= usize::from(count == 0);
        list.take_list(&format!("{:?}", made.kind), &made.frame, &outcome);
    }
    rare_verdicts(&mut list, seed ^ 0x7768_793F);
    list
}

/// Small frames until each verdict occurs often enough at each factor.
fn rare_verdicts(list: &mut List, seed: u64) {
    for index in 0.. {
        if OF_FACTOR.iter().all(|of| list.lacking(of).is_empty()) {
            break;
        }
        let made = made(seed, index, Sizes::within(LIST_ROOM));
        // Without a window the least count alone decides whether neighbours are too few.
        if !accepts(&made.frame) || made.frame.suppression == 0 {
            continue;
        }
        let outcome = run(&made.frame);
        if list.lacks(&made.frame, &outcome) && outcome.corners.len() <= Room::PROGRAM.corners {
            list.take_list(&format!("{:?}", made.kind), &made.frame, &outcome);
        }
    }
}

/// The longest file in the program list.
const LONGEST: usize = 2_400;
const ACCEPTED_FRAMES: usize = 280;
const FULL_FRAMES: usize = 16;
const REFUSED_FRAMES: usize = 18;
/// More than are named, so that made ones are among them.
const SMALL_FRAMES: usize = 90;

/// The file of document 01's frame after a change.
fn changed(change: impl FnOnce(&mut Frame)) -> Vec<u8> {
    let mut frame = document_frame();
    change(&mut frame);
    frame.bytes()
}

/// Frames that are too small, and something else besides: the first that applies is given, 15 after 8 and before 9.
fn small_files() -> Vec<Vec<u8>> {
    let small = |change: &dyn Fn(&mut Frame)| {
        let mut frame = cut();
        change(&mut frame);
        frame.bytes()
    };
    // Of over 2,304 working pixels.
    let thin = |width, height| doubled(like_document(width, height, vec![9; 600])).bytes();
    let side = limits::SIDE as u16;
    vec![
        small(&|frame| frame.width = side + 1),
        small(&|frame| frame.height = 7),
        small(&|frame| frame.ray = 8),
        small(&|frame| frame.blur = 4),
        small(&|frame| frame.suppression = 33),
        small(&|frame| frame.threshold = 0x7FC0_0000),
        small(&|frame| frame.mode = 2),
        thin(600, 1),
        thin(1, 600),
        doubled(like_document(0, side, vec![])).bytes(),
    ]
}

/// Files that are no frame at all, and frames at the ends of what the program takes.
fn named_files() -> Vec<Vec<u8>> {
    let document = document_frame();
    let wide = |width, height| changed(|frame| (frame.width, frame.height) = (width, height));
    let empty = |width| like_document(width, 0, vec![]).bytes();
    let threshold = |threshold| changed(|frame| frame.threshold = threshold);
    let long = |count: usize| like_document(count as u16, 1, vec![7; count]).bytes();
    let side = limits::SIDE as u16;
    let frames = named().into_iter().chain(bordered());
    let mut files: Vec<Vec<u8>> = frames.map(|frame| frame.bytes()).collect();
    files.extend(small_files());
    files.extend([
        vec![],
        vec![1],
        document.bytes()[..19].to_vec(),
        document.bytes()[..20].to_vec(),
        long(Room::PROGRAM.pixels),
        long(Room::PROGRAM.pixels + 1),
        doubled(like_document(24, 24, vec![3; 576])).bytes(),
        doubled(like_document(24, 25, vec![3; 600])).bytes(),
        wide(65_535, 65_535),
        wide(65_535, 0),
        wide(side + 1, 0),
        wide(side, 0),
        empty(side),
        empty(side + 1),
    ]);
    files.extend([0x8000_0000, 0x3F80_0001, 0x8000_0001, 0x7FC0_0000].map(threshold));
    files.extend([0x7F80_0000, 0xFF80_0000, 0x7F80_0001, 0x0000_0001].map(threshold));
    let around = |most: u32| [most as u8, most as u8 + 1, 255];
    files.extend(around(limits::RAY).map(|radius| changed(|frame| frame.ray = radius)));
    files.extend(around(limits::BLUR).map(|radius| changed(|frame| frame.blur = radius)));
    let suppressed = |radius| changed(|frame| frame.suppression = radius);
    files.extend(around(limits::SUPPRESSION).map(suppressed));
    files
}

/// What the program answers: accepted, list full, or the number.
fn answer(file: &[u8], text: &[u8]) -> String {
    match accepted(file, Room::PROGRAM) {
        Err(number) => format!("refused {number:2}"),
        Ok(_) if text.ends_with(b"list full\n") => "list full".to_string(),
        Ok(_) => "accepted".to_string(),
    }
}

/// The count on the first line of a printed list.
fn stated(text: &[u8]) -> Option<usize> {
    let line = text.split(|byte| *byte == b'\n').next()?;
    let line = std::str::from_utf8(line).ok()?;
    line.split(' ').nth(2)?.parse().ok()
}

fn most(answer: &str) -> usize {
    match answer {
        "accepted" => ACCEPTED_FRAMES,
        "list full" => FULL_FRAMES,
        "refused 15" => SMALL_FRAMES,
        _ => REFUSED_FRAMES,
    }
}

/// Answers the program can give; 4 is not among them, for its room ends long before that limit.
const ANSWERS: [&str; 15] = [
    "accepted",
    "list full",
    "refused  2",
    "refused  3",
    "refused  5",
    "refused  6",
    "refused  7",
    "refused  8",
    "refused  9",
    "refused 10",
    "refused 11",
    "refused 12",
    "refused 13",
    "refused 14",
    "refused 15",
];

impl List {
    fn has(&self, answer: &str) -> usize {
        let key = ("answer", answer.to_string());
        self.summary.get(&key).copied().unwrap_or(0)
    }

    /// Takes a file with what the program prints for it, unless there are enough of that answer.
    fn take(&mut self, kind: &str, file: &[u8], always: bool) {
        let text = printed(file, Room::PROGRAM);
        let answer = answer(file, &text);
        if file.len() > LONGEST || !always && self.has(&answer) >= most(&answer) {
            return;
        }
        self.note("kind", kind);
        self.note("answer", answer);
        if let Some(corners) = stated(&text) {
            self.note("corners", span(corners));
        }
        let mut record = Vec::new();
        part(&mut record, file);
        part(&mut record, &text);
        self.records.push(record);
    }
}

pub fn program_list(seed: u64) -> List {
    let mut list = List::default();
    for file in named_files() {
        list.take("Named", &file, true);
    }
    // Two made frames and a damaged one in turn, until there are enough of each answer.
    for index in 0.. {
        if ANSWERS
            .iter()
            .all(|answer| list.has(answer) >= most(answer))
        {
            break;
        }
        let seed = seed ^ 0x7072_6F67;
        for index in [2 * index, 2 * index + 1] {
            let made = made(seed, index, Sizes::PROGRAM);
            list.take(&format!("{:?}", made.kind), &made.frame.bytes(), false);
        }
        list.take("Damaged", &damaged(seed, index), false);
    }
    list
}
