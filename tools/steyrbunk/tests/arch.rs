//! Arches against a second reading of document 02's ticket 2, written from its text here and in `judge::dues`; a whole frame is
//! held against a single call.

mod common;

use std::ops::Range;

use common::{frame, image, Lent, DOCUMENT};
use judge::arch::laid;
use judge::random::Random;
use judge::{document_frame, dues, made, Kind, Sizes};
use steyrbunk::arch::{self, join};
use steyrbunk::frame::Frame;
use steyrbunk::lent::{self, Answer, ArchAnswer, Buffers};
use steyrbunk::{raw, Corner, Finder, Found, Refusal, Verdicts};

/// Seeded arches of each test that takes them.
const ARCHES: u64 = 6_000;

/// Entries that lie on either side of a lent part, and must stay.
const GUARD: usize = 9;
const GUARDED: u8 = 0xA7;

/// "21, a camera count not 2 to 8 or a list too short for one corner a camera, before any frame is read: all counts 0, no buffer
/// changed"; else "one list in which each frame gets an equal share of whole corners, the remainder unused".
fn second(cameras: usize, frames: &[u8], lent: &mut Lent) -> ArchAnswer {
    let corners = lent.list.len() / 3;
    if !(2..=8).contains(&cameras) || corners < cameras {
        return ArchAnswer {
            number: 21,
            cameras: [refused(21); 8],
        };
    }
    let size = 3 * (corners / cameras);
    let mut told = [refused(11); 8];
    for (i, due) in dues(cameras, frames).into_iter().enumerate() {
        told[i] = match due {
            Ok(file) => single(file, lent, i * size..(i + 1) * size),
            Err(number) => refused(number),
        };
    }
    ArchAnswer {
        number: 0,
        cameras: told,
    }
}

/// "a single call with that share as its list, with the work buffers as the earlier frames left them"
fn single(file: &[u8], lent: &mut Lent, share: Range<usize>) -> Answer {
    match Frame::parse(file) {
        Err(refusal) => refused(refusal.number()),
        Ok(frame) => lent.lend(|buffers, list| {
            lent::find(frame.image, &frame.settings, buffers, &mut list[share])
        }),
    }
}

fn refused(number: u32) -> Answer {
    Answer {
        number,
        ..Answer::default()
    }
}

/// A part between guards.
fn between<T: Copy>(part: &[T], guard: T) -> Vec<T> {
    let guard = [guard; GUARD];
    [&guard, part, &guard].concat()
}

fn middle<T>(all: &mut [T]) -> &mut [T] {
    let end = all.len() - GUARD;
    &mut all[GUARD..end]
}

/// The part again; the guards must be as they were.
fn taken_out<T: Copy + PartialEq>(all: &mut [T], guard: T) -> Vec<T> {
    let part = middle(all).to_vec();
    assert!(
        between(&part, guard).iter().eq(all.iter()),
        "beyond the lent part"
    );
    part
}

/// Does something to every part that is lent.
fn each(lent: &mut Lent, bytes: impl Fn(&mut Vec<u8>), words: impl Fn(&mut Vec<u32>)) {
    bytes(&mut lent.working);
    lent.tables.iter_mut().for_each(&words);
    words(&mut lent.response);
    words(&mut lent.scratch);
    words(&mut lent.list);
}

/// The library's arch, over parts with guards on both sides.
fn called(cameras: usize, frames: &[u8], lent: &mut Lent) -> ArchAnswer {
    let word = u32::from_be_bytes([GUARDED; 4]);
    each(
        lent,
        |part| *part = between(part, GUARDED),
        |part| *part = between(part, word),
    );
    let told = lent.lend(|all, list| {
        let parts = Buffers {
            working: middle(all.working),
            row_cumsum: middle(all.row_cumsum),
            col_cumsum: middle(all.col_cumsum),
            diag_pos_cumsum: middle(all.diag_pos_cumsum),
            diag_neg_cumsum: middle(all.diag_neg_cumsum),
            response: middle(all.response),
            blur_scratch: middle(all.blur_scratch),
        };
        lent::arch(cameras, frames, parts, middle(list))
    });
    each(
        lent,
        |part| *part = taken_out(part, GUARDED),
        |part| *part = taken_out(part, word),
    );
    told
}

/// Both over the same old contents: everything told and everything left is equal.
fn holds(cameras: usize, frames: &[u8], lent: &Lent) -> (ArchAnswer, Lent) {
    let (mut ours, mut expected) = (lent.clone(), lent.clone());
    let told = called(cameras, frames, &mut ours);
    assert_eq!(told, second(cameras, frames, &mut expected));
    assert_eq!(ours, expected, "{cameras} cameras, {told:?}");
    (told, ours)
}

/// Where the frames end that lie whole, each of them, and the beginning.
fn ends(cameras: usize, frames: &[u8]) -> Vec<usize> {
    let whole = dues(cameras, frames).into_iter().map_while(Result::ok);
    let mut ends = vec![0];
    whole.for_each(|file| ends.push(ends[ends.len() - 1] + file.len()));
    ends
}

/// A frame file that a single call takes or refuses, small enough for many.
fn file(random: &mut Random) -> Vec<u8> {
    let room = random.pick(&[49, 200, 600]);
    let mut frame = made(random.next(), 0, Sizes::within(room)).frame;
    match random.below(30) {
        0 => frame.width = 4_097,
        1 => frame.pixels.push(0),
        2 => frame.ray = 8,
        3 => frame.blur = 4,
        4 => frame.suppression = 33,
        5 => frame.threshold = f32::NAN.to_bits(),
        _ => {}
    }
    let mut file = frame.bytes();
    match random.below(30) {
        0 => file[0] = 2,
        1 => file[12] = 2,
        2 => {
            let few = random.below(15);
            file.truncate(5 + few);
            file[1..5].copy_from_slice(&(few as u32).to_be_bytes());
        }
        // A few bytes more or less than it has, so that the later ones begin elsewhere.
        3 => file[4] = file[4].wrapping_add(random.byte() % 9).wrapping_sub(4),
        _ => {}
    }
    file
}

/// The frames of an arch, whole or not.
fn frames(random: &mut Random, cameras: usize) -> Vec<u8> {
    let files: Vec<Vec<u8>> = (0..cameras).map(|_| file(random)).collect();
    laid(random, &files)
}

/// What is lent: enough for every frame or not, now and then one part shorter than the others; old contents at random.
fn lent(random: &mut Random, cameras: usize) -> Lent {
    let pixels = random.pick(&[0, 100, 300, 600, 600, 600]);
    let list = match random.below(8) {
        0 => random.below(3 * cameras + 3),
        1 => 3 * cameras + random.below(3 * cameras),
        _ => 3 * cameras * random.pick(&[1, 2, 5, 40]) + random.below(3 * cameras),
    };
    let mut lent = Lent::old(pixels, list, 0);
    if random.percent(15) {
        let shorter = random.below(7);
        let length = random.below(pixels + 1);
        match shorter {
            0 => lent.working.truncate(length),
            1..=4 => lent.tables[shorter - 1].truncate(length),
            5 => lent.response.truncate(length),
            _ => lent.scratch.truncate(length),
        }
    }
    aged(random, &mut lent);
    lent
}

/// Other old contents.
fn aged(random: &mut Random, lent: &mut Lent) {
    let seed = random.next();
    each(
        lent,
        |part| {
            let random = &mut Random::new(seed, 0);
            part.iter_mut().for_each(|byte| *byte = random.byte());
        },
        |part| {
            let random = &mut Random::new(seed, 1);
            part.iter_mut()
                .for_each(|word| *word = random.next() as u32);
        },
    );
}

/// Every frame of many arches against a single call, what is lent after each frame too.
#[test]
fn seeded_arches() {
    let mut answers = [0u64; 22];
    for index in 0..ARCHES {
        let random = &mut Random::new(1, index);
        let cameras = random.range(2, 8);
        let (frames, lent) = (frames(random, cameras), lent(random, cameras));
        let (told, _) = holds(cameras, &frames, &lent);
        for camera in &told.cameras[..cameras] {
            answers[camera.number as usize] += 1;
        }
        // The later cameras have no frame, so that what is left is what the earlier ones left.
        for end in ends(cameras, &frames) {
            holds(cameras, &frames[..end], &lent);
        }
    }
    println!("answers of the cameras by number: {answers:?}");
    // The arches show each of these often; 4 has a test of its own.
    for number in [0, 1, 2, 3, 5, 6, 7, 8, 9, 11, 12, 13, 14, 15, 21] {
        assert!(answers[number] > 50, "{number} came {}", answers[number]);
    }
    assert_eq!((answers[4], answers[10]), (0, 0));
}

/// Old contents change neither what is told nor the corners, nor do bytes behind the last frame.
#[test]
fn old_contents_and_bytes_behind() {
    for index in 0..ARCHES {
        let random = &mut Random::new(2, index);
        let cameras = random.range(2, 8);
        let (frames, lent) = (frames(random, cameras), lent(random, cameras));
        let (told, left) = holds(cameras, &frames, &lent);
        let mut other = lent.clone();
        aged(random, &mut other);
        let (told_again, left_again) = holds(cameras, &frames, &other);
        assert_eq!(told, told_again);
        if told.number == 0 {
            let size = left.list.len() / 3 / cameras * 3;
            for (i, camera) in told.cameras[..cameras].iter().enumerate() {
                let written = i * size..i * size + size.min(3 * camera.count);
                assert_eq!(left.list[written.clone()], left_again.list[written]);
            }
        }
        let ends = ends(cameras, &frames);
        if ends.len() == cameras + 1 {
            for behind in [&[][..], &[1, 0, 0, 0, 64], &[255; 30]] {
                let more = [&frames[..ends[cameras]], behind].concat();
                assert_eq!(holds(cameras, &more, &lent), (told, left.clone()));
            }
        }
    }
}

/// A camera of document 01's frame: one corner, of one candidate.
const ONE: Answer = Answer {
    number: 0,
    count: 1,
    width: 7,
    height: 7,
    verdicts: KEPT,
};
const KEPT: Verdicts = Verdicts {
    kept: 1,
    ..Verdicts::NONE
};
const CORNER: [u32; 3] = [0x4040_0000, 0x4040_0000, 0x481C_4000];

/// One file for each refusal that a whole frame of an arch can have, but 9; its number stands beside it.
fn refused_files() -> Vec<(u32, Vec<u8>)> {
    let document = document_frame();
    let with = |change: &dyn Fn(&mut judge::Frame)| {
        let mut frame = document.clone();
        change(&mut frame);
        frame.bytes()
    };
    let struck = |at: usize, byte: u8| {
        let mut file = document.bytes();
        file[at] = byte;
        file
    };
    let mut files = vec![
        (2, with(&|frame| frame.width = 4_097)),
        (3, with(&|frame| frame.height = 6)),
        (5, with(&|frame| frame.ray = 8)),
        (6, with(&|frame| frame.blur = 4)),
        (7, with(&|frame| frame.suppression = 33)),
        (8, with(&|frame| frame.threshold = 0x3F80_0001)),
        (12, struck(0, 0)),
        (14, struck(12, 2)),
        (15, with(&|frame| frame.suppression = 2)),
    ];
    // Too small by one side, by both, and without a pixel.
    files.extend(
        [(6, 7), (7, 6), (6, 6), (0, 7), (7, 0)].map(|(width, height)| {
            let small = judge::Frame {
                width,
                height,
                pixels: vec![9; usize::from(width * height)],
                ..document.clone()
            };
            (15, small.bytes())
        }),
    );
    // Under 20 bytes, and whole: version and all else are not looked at.
    files.extend((0..15).map(|few| {
        (
            11,
            [&[few, 0, 0, 0, few][..], &vec![7; few.into()]].concat(),
        )
    }));
    files
}

/// A refused frame stops nobody, wherever it stands.
#[test]
fn every_refusal_at_every_camera() {
    let whole = document_frame().bytes();
    for (number, file) in refused_files() {
        for cameras in 2..=8 {
            let lent = Lent::old(49, 3 * cameras + 2, 0x5A);
            for at in 0..cameras {
                let mut files = vec![whole.clone(); cameras];
                files[at] = file.clone();
                let (told, left) = holds(cameras, &join(&files), &lent);
                for i in 0..cameras {
                    let share = &left.list[3 * i..3 * i + 3];
                    if i == at {
                        assert_eq!((told.cameras[i], share), (refused(number), &lent.list[..3]));
                    } else {
                        assert_eq!((told.cameras[i], share), (ONE, &CORNER[..]));
                    }
                }
                assert_eq!(told.cameras[cameras..], vec![refused(11); 8 - cameras]);
                assert_eq!(left.list[3 * cameras..], lent.list[..2]);
            }
        }
    }
}

/// Refusal 4 needs a frame of over eight million working pixels.
#[test]
fn too_many_working_pixels() {
    let large = judge::Frame {
        width: 2_048,
        height: 1_025,
        upsampling: 2,
        pixels: vec![0; 2_048 * 1_025],
        ..document_frame()
    };
    let whole = document_frame().bytes();
    let frames = join(&[whole.clone(), large.bytes(), whole]);
    let (told, _) = holds(3, &frames, &Lent::old(49, 9, 0x5A));
    assert_eq!(told.cameras[..3], [ONE, refused(4), ONE]);
    let found = Finder::new().arch(3, &frames).expect("three cameras");
    assert_eq!(found[1], Err(Refusal::TooManyPixels));
}

/// A camera whose picture is cropped too far is told 15, however short the buffers are; one pixel more is searched.
#[test]
fn cropped_cameras() {
    let sized = |width: u16, height: u16| judge::Frame {
        width,
        height,
        ray: 4,
        suppression: 4,
        upsampling: 2,
        pixels: vec![100; usize::from(width * height)],
        ..document_frame()
    };
    let files = [sized(10, 10), sized(9, 10), sized(600, 9), sized(10, 11)];
    let frames = join(&files.map(|frame| frame.bytes()));
    let searched = |width, height| Answer {
        width,
        height,
        verdicts: Verdicts {
            not_above: (width - 18) * (height - 18),
            ..Verdicts::NONE
        },
        ..Answer::default()
    };
    let (told, _) = holds(4, &frames, &Lent::old(440, 60, 0x5A));
    let small = refused(15);
    let expected = [searched(20, 20), small, small, searched(20, 22)];
    assert_eq!(told.cameras[..4], expected);
    let (told, left) = holds(4, &frames, &Lent::old(0, 60, 0x5A));
    let short = refused(9);
    assert_eq!(told.cameras[..4], [short, small, small, short]);
    assert_eq!(left, Lent::old(0, 60, 0x5A));
    let found = Finder::new().arch(4, &frames).expect("four cameras");
    assert_eq!(found[2], Err(Refusal::FrameTooSmall));
    assert_eq!(found[0].as_ref().map(|found| found.corners.len()), Ok(0));
}

/// Buffers too short for one camera are no matter for the others: 9.
#[test]
fn buffers_too_short_for_some() {
    let (small, large) = (document_frame(), frame(Kind::Board, 20, 30));
    let frames = join(&[small.bytes(), large.bytes(), small.bytes()]);
    let enough = Lent::old(600, 900, 0x5A);
    assert_eq!(holds(3, &frames, &enough).0.cameras[1].number, 0);
    for lent in enough.each_short() {
        let (told, _) = holds(3, &frames, &lent);
        assert_eq!(told.cameras[..3], [ONE, refused(9), ONE]);
    }
    for pixels in [0, 48] {
        let (told, _) = holds(3, &frames, &Lent::old(pixels, 90, 0x5A));
        assert_eq!(told.cameras[..3], [refused(9); 3]);
    }
}

/// An arch of document 01's frames cut to every length, and with every few bytes behind a whole frame.
#[test]
fn every_length() {
    let whole = document_frame().bytes();
    let frames = join(&vec![whole.clone(); 3]);
    let lent = Lent::old(49, 9, 0x5A);
    for length in 0..=frames.len() {
        let (told, _) = holds(3, &frames[..length], &lent);
        for (i, camera) in told.cameras[..3].iter().enumerate() {
            let left = length.saturating_sub(i * whole.len());
            let expected = match left {
                0..5 => refused(11),
                5..69 => refused(13),
                _ => ONE,
            };
            assert_eq!(*camera, expected, "{length} bytes, camera {i}");
        }
    }
}

/// Stated lengths about what is left and up to the greatest: 13 comes first, whatever else is wrong.
#[test]
fn lengths_past_the_end() {
    let whole = document_frame().bytes();
    let lent = Lent::old(49, 12, 0x5A);
    let (left, greatest) = (69 - 5, u32::MAX);
    let lengths = (left + 1..left + 40).chain(greatest - 40..=greatest);
    for length in lengths.chain([0x7FFF_FFFF, 0x8000_0000, 0xFFFF_0000]) {
        for version in [1, 2] {
            for at in 0..4 {
                let mut files = vec![whole.clone(); 4];
                files[at][0] = version;
                files[at][1..5].copy_from_slice(&length.to_be_bytes());
                files.truncate(at + 1);
                let (told, _) = holds(4, &join(&files), &lent);
                let expected = [vec![ONE; at], vec![refused(13)], vec![refused(11); 7 - at]];
                assert_eq!(told.cameras[..], expected.concat());
            }
        }
    }
}

/// Lists of every small length: shares of whole corners, and what is left over stays.
#[test]
fn every_small_list() {
    let board = judge::Frame {
        threshold: 0,
        ..frame(Kind::Board, 24, 24)
    };
    let files = vec![board.bytes(); 8];
    let count = holds(2, &join(&files), &Lent::old(576, 6_000, 0x5A))
        .0
        .cameras[0]
        .count;
    assert!(count > 12, "{count} corners");
    for cameras in 2..=8 {
        let frames = join(&files[..cameras]);
        for length in 0..=100 {
            let lent = Lent::old(576, length, 0x5A);
            let (told, left) = holds(cameras, &frames, &lent);
            assert_eq!(told.number, if length < 3 * cameras { 21 } else { 0 });
            if told.number == 0 {
                let size = length / 3 / cameras * 3;
                let (full, all) = (Answer::LIST_FULL, Answer::COMPLETE);
                let number = if size / 3 < count { full } else { all };
                for camera in &told.cameras[..cameras] {
                    assert_eq!((camera.number, camera.count), (number, count));
                    assert_eq!(camera.verdicts.kept, count);
                }
                for i in 0..cameras {
                    assert_eq!(arch::share(length, cameras, i), i * size..(i + 1) * size);
                    assert_eq!(left.list[i * size..][..size], left.list[..size]);
                }
                assert!(left.list[cameras * size..]
                    .iter()
                    .all(|word| *word == 0x5A5A_5A5A));
            }
        }
    }
}

/// 21 before any frame is read: everything stays, and all are told.
#[test]
fn twenty_one() {
    let all = ArchAnswer {
        number: 21,
        cameras: [refused(21); 8],
    };
    let frames = join(&vec![document_frame().bytes(); 9]);
    let lent = Lent::old(49, 300, 0x5A);
    for cameras in [0, 1, 9, 10, 1 << 31, 1 << 32, usize::MAX / 3, usize::MAX] {
        for frames in [&frames[..], &[]] {
            assert_eq!(holds(cameras, frames, &lent), (all, lent.clone()));
            assert_eq!(
                Finder::new().arch(cameras, frames),
                Err(Refusal::from_number(21))
            );
        }
    }
    for cameras in 2..=8 {
        for length in [0, 1, 2, 3, 3 * cameras - 3, 3 * cameras - 1] {
            let lent = Lent::old(49, length, 0x5A);
            assert_eq!(holds(cameras, &frames, &lent), (all, lent));
        }
        let (told, _) = holds(cameras, &frames, &Lent::old(49, 3 * cameras, 0x5A));
        assert_eq!(told.cameras[..cameras], vec![ONE; cameras]);
    }
    assert_eq!(
        Refusal::Cameras.to_string(),
        "refused 21: the camera count is not 2 to 8, or the list has less than one corner a camera"
    );
}

/// What the finder makes of each frame by itself.
fn one_by_one(cameras: usize, frames: &[u8]) -> Vec<Result<Found, Refusal>> {
    let mut finder = Finder::new();
    let mut found = |due: Result<&[u8], u32>| {
        let frame = Frame::parse(due.map_err(Refusal::from_number)?)?;
        finder.find(frame.image, &frame.settings)
    };
    dues(cameras, frames).into_iter().map(&mut found).collect()
}

/// The owned form, with one finder for all: its buffers are never too short, and it shows no map.
#[test]
fn owned() {
    let mut finder = Finder::new();
    let document = document_frame();
    for index in 0..ARCHES {
        let random = &mut Random::new(3, index);
        let cameras = random.range(2, 8);
        let frames = frames(random, cameras);
        let found = finder.arch(cameras, &frames).expect("a camera count");
        assert_eq!(found, one_by_one(cameras, &frames));
        assert!(finder.map().response.is_empty());
        let whole = dues(cameras, &frames).into_iter().map_while(Result::ok);
        assert!(arch::whole(&frames).take(cameras).eq(whole));
        if index % 100 == 0 {
            assert!(finder.find(image(&document), &DOCUMENT).is_ok());
            assert_eq!(finder.map().response.len(), 49);
        }
    }
}

/// More corners than a new list has room for, at one camera or at all.
#[test]
fn a_list_that_grows() {
    let many = judge::Frame {
        ray: 1,
        suppression: 0,
        least: 0,
        threshold: 0,
        ..frame(Kind::Random, 200, 200)
    };
    let few = document_frame();
    for files in [
        vec![many.bytes(), few.bytes()],
        vec![few.bytes(), few.bytes(), many.bytes()],
        vec![many.bytes(); 8],
    ] {
        let (cameras, frames) = (files.len(), join(&files));
        let found = Finder::new().arch(cameras, &frames).expect("accepted");
        assert_eq!(found, one_by_one(cameras, &frames));
        let most = found.iter().flatten().map(|found| found.corners.len());
        assert!(most.max() > Some(1_024));
    }
}

/// Memory that ends where nothing can be read: a read beyond it ends the test.
#[cfg(target_os = "linux")]
mod edge {
    use std::ffi::c_void;
    use std::{ptr, slice};

    extern "C" {
        fn mmap(
            at: *mut c_void,
            n: usize,
            rights: i32,
            how: i32,
            file: i32,
            from: i64,
        ) -> *mut c_void;
        fn mprotect(at: *mut c_void, n: usize, rights: i32) -> i32;
        fn munmap(at: *mut c_void, n: usize) -> i32;
    }

    /// A whole number of pages, whatever their size.
    pub const HALF: usize = 1 << 16;

    pub struct Edge(*mut c_void);

    impl Edge {
        pub fn new() -> Edge {
            // SAFETY: memory of its own, of which the second half is closed.
            unsafe {
                let all = mmap(ptr::null_mut(), 2 * HALF, 3, 0x22, -1, 0);
                assert_ne!(all as isize, -1, "memory");
                assert_eq!(mprotect(all.byte_add(HALF), HALF, 0), 0);
                Edge(all)
            }
        }

        /// The bytes, at the very end of what can be read.
        pub fn hold(&mut self, bytes: &[u8]) -> &[u8] {
            // SAFETY: the first half is this memory's own.
            let half = unsafe { slice::from_raw_parts_mut(self.0.cast::<u8>(), HALF) };
            let held = &mut half[HALF - bytes.len()..];
            held.copy_from_slice(bytes);
            held
        }
    }

    impl Drop for Edge {
        fn drop(&mut self) {
            // SAFETY: it was mapped so.
            unsafe { munmap(self.0, 2 * HALF) };
        }
    }
}

/// "Bytes after the last frame aren't read", though they belong to the slice; and none is read beyond the slice.
#[cfg(target_os = "linux")]
#[test]
fn what_is_not_read() {
    let mut edge = edge::Edge::new();
    let whole = document_frame().bytes();
    for cameras in 2..=8 {
        let frames = join(&vec![whole.clone(); cameras]);
        for length in 0..=frames.len() {
            let mut lent = Lent::old(49, 3 * cameras, 0x5A);
            let expected = second(cameras, &frames[..length], &mut lent.clone());
            let held = edge.hold(&frames[..length]);
            let told = lent.lend(|buffers, list| lent::arch(cameras, held, buffers, list));
            assert_eq!(told, expected);
        }
        let mut lent = Lent::old(49, 3 * cameras, 0x5A);
        let held = edge.hold(&frames);
        let told = lent.lend(|b, list| with_bytes_behind(cameras, held, b, list));
        assert_eq!(told[..cameras], vec![0; cameras]);
        assert_eq!(lent.list, CORNER.repeat(cameras));
    }
}

/// The answers of an arch whose slice goes on behind `frames`, where nothing can be read.
#[cfg(target_os = "linux")]
fn with_bytes_behind(cameras: usize, frames: &[u8], b: Buffers, list: &mut [f32]) -> Vec<usize> {
    let mut told = [raw::Camera {
        answer: 99,
        count: 99,
        w: 99,
        h: 99,
        verdicts: [99; 6],
    }; 8];
    // SAFETY: as in the wrapper, but for the end of the frames, which are to be left alone.
    let answer = unsafe {
        raw::steyrbunk_run_arch(
            cameras,
            frames.as_ptr(),
            frames.len() + edge::HALF,
            b.working.as_mut_ptr(),
            b.working.len(),
            b.row_cumsum.as_mut_ptr(),
            b.row_cumsum.len(),
            b.col_cumsum.as_mut_ptr(),
            b.col_cumsum.len(),
            b.diag_pos_cumsum.as_mut_ptr(),
            b.diag_pos_cumsum.len(),
            b.diag_neg_cumsum.as_mut_ptr(),
            b.diag_neg_cumsum.len(),
            b.response.as_mut_ptr(),
            b.response.len(),
            b.blur_scratch.as_mut_ptr(),
            b.blur_scratch.len(),
            list.as_mut_ptr(),
            list.len(),
            told.as_mut_ptr(),
        )
    };
    assert_eq!(answer, 0);
    told.iter().map(|camera| camera.answer).collect()
}

/// One arch written out.
#[test]
fn document_frames() {
    let corner = Corner {
        x: 3.0,
        y: 3.0,
        strength: 160_000.0,
    };
    let one = Found {
        corners: vec![corner],
        width: 7,
        height: 7,
        verdicts: Some(KEPT),
    };
    let frame = document_frame();
    let frames = join(&[
        &frame.bytes()[..],
        &[2, 0, 0, 0, 15],
        &[0; 15],
        &frame.bytes(),
    ]);
    let found = Finder::new().arch(4, &frames).expect("four cameras");
    assert_eq!(
        found,
        [
            Ok(one.clone()),
            Err(Refusal::Version),
            Ok(one),
            Err(Refusal::FileTooShort),
        ]
    );
}
