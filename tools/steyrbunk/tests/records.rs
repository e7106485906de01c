//! Corner records against a second writer and a second reader, both written from the ticket's text alone.

mod common;

use common::{frame, image};
use judge::random::Random;
use judge::Kind;
use steyrbunk::lent::{self, Answer};
use steyrbunk::{limits, record, Corner, Finder, Found, Refusal, Settings};

/// Document 02's greatest number of corners.
const MOST: usize = 8_388_608;

/// "big-endian: version byte 1, four bytes with the number of bytes that follow them, working width and height (2 each),
/// count (4), then x, y and strength bits for each corner"
fn second_writer(width: u16, height: u16, list: &[u32]) -> Vec<u8> {
    let whole = &list[..list.len() / 3 * 3];
    let mut after = vec![
        (width >> 8) as u8,
        width as u8,
        (height >> 8) as u8,
        height as u8,
    ];
    after.extend(big_endian(whole.len() / 3));
    whole
        .iter()
        .for_each(|bits| after.extend(big_endian(*bits as usize)));
    [&[1][..], &big_endian(after.len()), &after].concat()
}

fn big_endian(number: usize) -> [u8; 4] {
    [24, 16, 8, 0].map(|shift| (number >> shift) as u8)
}

/// The numbers of a list that is read, with its sizes.
type Listed = (u16, u16, Vec<u32>);

/// "16 under 13 bytes or stated length wrong, 17 version not 1, 18 count and length disagree or over 8,388,608 corners, 19 a
/// number not finite, 20 output too short; .. lowest first"
fn second_reader(record: &[u8], room: usize) -> Result<Listed, u32> {
    let number = |from: usize, bytes: usize| {
        let part = &record[from..from + bytes];
        part.iter()
            .fold(0u128, |sum, byte| 256 * sum + u128::from(*byte))
    };
    if record.len() < 13 || number(1, 4) != record.len() as u128 - 5 {
        return Err(16);
    }
    if record[0] != 1 {
        return Err(17);
    }
    let count = number(9, 4);
    if 2 + 2 + 4 + 12 * count != number(1, 4) || count > MOST as u128 {
        return Err(18);
    }
    let list: Vec<u32> = (13..record.len())
        .step_by(4)
        .map(|at| number(at, 4) as u32)
        .collect();
    if list.iter().any(|bits| is_stray(*bits)) {
        return Err(19);
    }
    if room < list.len() {
        return Err(20);
    }
    Ok((number(5, 2) as u16, number(7, 2) as u16, list))
}

/// Infinities and NaNs have an exponent of all ones.
fn is_stray(bits: u32) -> bool {
    bits >> 23 & 0xFF == 0xFF
}

fn floats(bits: &[u32]) -> Vec<f32> {
    bits.iter().map(|bits| f32::from_bits(*bits)).collect()
}

fn bits(floats: &[f32]) -> Vec<u32> {
    floats.iter().map(|float| float.to_bits()).collect()
}

fn refused(number: u32) -> Answer {
    Answer {
        number,
        ..Answer::default()
    }
}

fn taken(width: u16, height: u16, list: &[u32]) -> Answer {
    Answer {
        number: 0,
        count: list.len() / 3,
        width: width.into(),
        height: height.into(),
        ..Answer::default()
    }
}

/// Entries that lie on either side of a lent part, and must stay.
const GUARD: usize = 9;

/// An entry of a buffer, told apart by its bits: a NaN is equal to itself.
trait Entry: Copy {
    fn same(self, other: Self) -> bool;
}

impl Entry for u8 {
    fn same(self, other: u8) -> bool {
        self == other
    }
}

impl Entry for f32 {
    fn same(self, other: f32) -> bool {
        self.to_bits() == other.to_bits()
    }
}

/// Whether all entries are the old ones.
fn untouched<T: Entry>(entries: &[T], old: T) -> bool {
    entries.iter().all(|entry| entry.same(old))
}

/// Lends the middle of a buffer full of an old value to a call, and gives the middle back; what lies beyond it must stay.
fn between<T: Entry>(
    room: usize,
    old: T,
    call: impl FnOnce(&mut [T]) -> Answer,
) -> (Answer, Vec<T>) {
    let mut all = vec![old; GUARD + room + GUARD];
    let answer = call(&mut all[GUARD..GUARD + room]);
    let after = all.split_off(GUARD + room);
    let lent = all.split_off(GUARD);
    assert!(
        untouched(&all, old) && untouched(&after, old),
        "beyond the lent part"
    );
    (answer, lent)
}

/// What the writer answers and leaves in an output of that length.
fn write(width: u16, height: u16, list: &[u32], room: usize, old: u8) -> (Answer, Vec<u8>) {
    let list = floats(list);
    let before = bits(&list);
    let result = between(room, old, |out| {
        lent::write_record(width, height, &list, out)
    });
    assert_eq!(bits(&list), before, "the list is only read");
    result
}

/// What the reader answers and leaves in a list of that length, as bits.
fn read(record: &[u8], room: usize, old: f32) -> (Answer, Vec<u32>) {
    let before = record.to_vec();
    let (answer, list) = between(room, old, |list| lent::read_record(record, list));
    assert_eq!(record, before, "the record is only read");
    (answer, bits(&list))
}

/// The writer against the second one, in outputs of some lengths about the right one.
fn writes(width: u16, height: u16, list: &[u32]) {
    let whole = &list[..list.len() / 3 * 3];
    let expected = second_writer(width, height, list);
    let stray = whole.iter().any(|bits| is_stray(*bits));
    for room in [
        0,
        12,
        expected.len() - 1,
        expected.len(),
        expected.len() + 7,
    ] {
        for old in [0x5A, 0xA5] {
            let (answer, out) = write(width, height, list, room, old);
            let number = if stray { 19 } else { 20 };
            if stray || room < expected.len() {
                assert_eq!((answer, out), (refused(number), vec![old; room]));
            } else {
                assert_eq!(answer, taken(width, height, list));
                assert_eq!(out[..expected.len()], expected);
                assert!(out[expected.len()..].iter().all(|byte| *byte == old));
            }
        }
    }
}

/// The reader against the second one, in lists of some lengths about the right one; a record that is taken is written again.
fn reads(record: &[u8]) -> u32 {
    let numbers = record.len().saturating_sub(13) / 4;
    let rooms = [
        0,
        1,
        numbers.saturating_sub(1),
        numbers,
        numbers + 1,
        numbers + 5,
    ];
    let mut answers = Vec::new();
    for room in rooms {
        for old in [0.5, f32::NAN] {
            let (answer, list) = read(record, room, old);
            let kept = vec![old.to_bits(); room];
            match second_reader(record, room) {
                Err(number) => {
                    assert_eq!((answer, list), (refused(number), kept), "{record:?}")
                }
                Ok((width, height, expected)) => {
                    assert_eq!(answer, taken(width, height, &expected), "{record:?}");
                    assert_eq!(list[..expected.len()], expected);
                    assert_eq!(list[expected.len()..], kept[expected.len()..]);
                    assert_eq!(write(width, height, &expected, record.len(), 0).1, record);
                }
            }
            answers.push(answer.number);
        }
    }
    // The owned reader has room enough.
    let last = *answers.last().expect("some rooms");
    match record::parse(record) {
        Ok(found) => assert_eq!((last, record::bytes(&found).as_deref()), (0, Ok(record))),
        Err(refusal) => assert_eq!(refusal.number(), last),
    }
    last
}

/// Zeros of both signs, the least and greatest subnormals, the least normal numbers, the greatest ones.
const EDGES: [u32; 12] = [
    0x0000_0000,
    0x8000_0000,
    0x0000_0001,
    0x8000_0001,
    0x007F_FFFF,
    0x807F_FFFF,
    0x0080_0000,
    0x8080_0000,
    0x7F7F_FFFF,
    0xFF7F_FFFF,
    0x3F80_0000,
    0xC0A0_0000,
];

#[test]
fn every_bit_comes_back() {
    for (width, height) in [
        (0, 0),
        (7, 7),
        (65_535, 65_535),
        (255, 256),
        (0x1234, 0x00FF),
    ] {
        for count in 0..=EDGES.len() / 3 {
            let list = &EDGES[..3 * count];
            writes(width, height, list);
            assert_eq!(reads(&second_writer(width, height, list)), 0);
        }
        // Each edge at each place of a corner.
        for at in 0..EDGES.len() {
            let turned = [&EDGES[at..], &EDGES[..at]].concat();
            writes(width, height, &turned);
            assert_eq!(reads(&second_writer(width, height, &turned)), 0);
        }
    }
}

/// The document's own numbers, byte by byte.
#[test]
fn one_record_written_out() {
    let found = Found {
        corners: vec![Corner {
            x: 3.0,
            y: -0.0,
            strength: 160_000.0,
        }],
        width: 7,
        height: 258,
        verdicts: None,
    };
    let expected = [
        1, 0, 0, 0, 20, 0, 7, 1, 2, 0, 0, 0, 1, 0x40, 0x40, 0, 0, 0x80, 0, 0, 0, 0x48, 0x1C, 0x40,
        0,
    ];
    assert_eq!(record::bytes(&found), Ok(expected.to_vec()));
    let back = record::parse(&expected).expect("taken");
    assert_eq!(back.corners[0].bits(), found.corners[0].bits());
    assert_eq!((back.width, back.height), (7, 258));
    assert_eq!(record::length(1), expected.len());
    let none = Found {
        corners: Vec::new(),
        ..found
    };
    assert_eq!(
        record::bytes(&none).map(|bytes| bytes.len()),
        Ok(record::HEAD)
    );
    assert_eq!(
        record::parse(&record::bytes(&none).expect("taken")),
        Ok(none)
    );
}

#[test]
fn numbers_left_over() {
    let (nan, infinity) = (0x7FC0_0000, 0x7F80_0000);
    for left in [&[][..], &[nan], &[infinity], &[nan, infinity], &[0, 0]] {
        for whole in 0..3 {
            writes(9, 8, &[&EDGES[..3 * whole], left].concat());
        }
    }
    assert_eq!(write(1, 1, &[nan, nan], 13, 0).0, taken(1, 1, &[]));
}

/// A list with each kind of number that is not finite, at each place.
#[test]
fn numbers_that_are_not_finite() {
    for stray in [
        0x7F80_0000,
        0xFF80_0000,
        0x7FC0_0000,
        0xFFC0_0000,
        0x7F80_0001,
        0xFFFF_FFFF,
    ] {
        for at in 0..6 {
            let mut list = EDGES[..6].to_vec();
            list[at] = stray;
            writes(3, 4, &list);
            assert_eq!(reads(&second_writer(3, 4, &list)), 19);
            let corner = |at: usize| Corner {
                x: f32::from_bits(list[3 * at]),
                y: f32::from_bits(list[3 * at + 1]),
                strength: f32::from_bits(list[3 * at + 2]),
            };
            let found = Found {
                corners: vec![corner(0), corner(1)],
                width: 3,
                height: 4,
                verdicts: None,
            };
            assert_eq!(record::bytes(&found), Err(Refusal::NotFinite));
        }
    }
}

/// All faults at once, then taken away from the lowest on.
#[test]
fn the_lowest_number() {
    let mut record = second_writer(5, 6, &EDGES[..6]);
    let length = record[4];
    record[0] = 2;
    record[4] = 0;
    record[12] = 7;
    record[13] = 0x7F;
    record[14] = 0xFF;
    assert_eq!(read(&record, 0, 1.0).0, refused(16));
    record[4] = length;
    assert_eq!(read(&record, 0, 1.0).0, refused(17));
    record[0] = 1;
    assert_eq!(read(&record, 0, 1.0).0, refused(18));
    record[12] = 2;
    assert_eq!(read(&record, 0, 1.0).0, refused(19));
    record[13] = 0;
    assert_eq!(read(&record, 5, 1.0).0, refused(20));
    assert_eq!(read(&record, 6, 1.0).0.number, 0);
    // Under 13 bytes nothing else is looked at, whatever stands there.
    for length in 0..13 {
        for byte in [0, 1, 8, 255] {
            assert_eq!(reads(&vec![byte; length]), 16);
        }
    }
}

/// Counts whose product with 12 is past 32 bits and looks right in them.
#[test]
fn counts_that_would_wrap() {
    let quarter = 1u64 << 30;
    for corners in 0..4 {
        let sound = second_writer(1, 2, &EDGES[..3 * corners]);
        for turn in 1..4 {
            let count = corners as u64 + turn * quarter;
            assert_eq!((8 + 12 * count) as u32, 8 + 12 * corners as u32);
            let mut record = sound.clone();
            record[9..13].copy_from_slice(&(count as u32).to_be_bytes());
            assert_eq!(reads(&record), 18, "{count}");
        }
    }
    // Lengths that only a wrapped product gives, and the greatest counts.
    for count in (357_913_941..=357_913_945).chain(u32::MAX - 2..=u32::MAX) {
        let stated = 8u32.wrapping_add(count.wrapping_mul(12));
        for stated in [stated, 8, 20, 32] {
            if (8..1_000).contains(&stated) {
                let mut record = vec![0; 5 + stated as usize];
                record[0] = 1;
                record[1..5].copy_from_slice(&stated.to_be_bytes());
                record[9..13].copy_from_slice(&count.to_be_bytes());
                assert_eq!(reads(&record), 18, "{count}");
            }
        }
    }
}

/// Every byte of a small record with every other value, every length up to it, and bytes behind it.
#[test]
fn every_damage_of_a_byte() {
    let sound = second_writer(0x0102, 0x0304, &EDGES[4..10]);
    let mut seen = [0u32; 21];
    for at in 0..sound.len() {
        for value in 0..=255 {
            let mut record = sound.clone();
            record[at] = value;
            let answer = reads(&record);
            seen[answer as usize] += 1;
            // Two bytes of the same value, one of them the version: the lowest still wins.
            record[0] = value;
            reads(&record);
        }
    }
    for length in 0..sound.len() {
        assert_eq!(reads(&sound[..length]), 16);
    }
    for more in 1..30 {
        assert_eq!(reads(&[&sound[..], &vec![1; more]].concat()), 16);
    }
    // Sizes and numbers may be others; a length that is stated wrongly may not, nor a version, nor a count.
    assert_eq!((seen[16], seen[17], seen[18]), (4 * 255, 255, 4 * 255));
    assert!(seen[0] > 4 * 255 && seen[19] > 0, "{seen:?}");
}

/// A number of the list that is mostly finite.
fn number(random: &mut Random) -> u32 {
    match random.below(100) {
        0 => 0x7F80_0000 | (random.next() as u32 & 0x80FF_FFFF),
        1..=20 => random.pick(&EDGES),
        21..=60 => (random.between(-10.0, 5_000.0) as f32).to_bits(),
        _ => random.next() as u32 & 0xFEFF_FFFF,
    }
}

#[test]
fn random_lists() {
    for index in 0..20_000 {
        let random = &mut Random::new(31, index);
        let length = random.pick(&[0, 1, 2, 3, 4, 5, 6, 30, 99, 100, 101]);
        let list: Vec<u32> = (0..length).map(|_| number(random)).collect();
        writes(random.next() as u16, random.next() as u16, &list);
    }
}

/// Records with none, one or some of their fields changed.
#[test]
fn random_records() {
    let mut seen = [0u32; 21];
    for index in 0..60_000 {
        let random = &mut Random::new(32, index);
        let list: Vec<u32> = (0..3 * random.below(12)).map(|_| number(random)).collect();
        let mut record = second_writer(random.next() as u16, random.next() as u16, &list);
        match random.below(8) {
            0 => record.truncate(random.below(record.len() + 1)),
            1 => record.extend((0..random.range(1, 24)).map(|_| 0)),
            2 => record[0] = random.byte(),
            3 => {
                let count = random.pick(&[0, 1, list.len() / 3 + 1, usize::MAX, 1 << 30]);
                record[9..13].copy_from_slice(&big_endian(count));
            }
            4 => {
                // The length goes along with bytes cut off or added: the count alone is wrong.
                record.resize(13 + random.below(60), 0);
                let stated = big_endian(record.len() - 5);
                record[1..5].copy_from_slice(&stated);
            }
            5 => (0..random.range(1, 3)).for_each(|_| {
                let at = random.below(record.len());
                record[at] ^= 1 << random.below(8);
            }),
            _ => {}
        }
        seen[reads(&record) as usize] += 1;
    }
    for number in [0, 16, 17, 18, 19] {
        assert!(seen[number] > 1_000, "{number}: {seen:?}");
    }
}

/// A number of a long list, all of them finite.
fn long(at: usize) -> u32 {
    (at as u32).wrapping_mul(0x9E37_79B1) & 0xFEFF_FFFF
}

/// The greatest record is written and read; one corner more is refused both ways.
#[test]
fn the_greatest_record() {
    assert_eq!(limits::RECORD_CORNERS, MOST);
    let numbers: Vec<f32> = (0..3 * (MOST + 1))
        .map(|at| f32::from_bits(long(at)))
        .collect();
    let length = 13 + 12 * MOST;
    // Two numbers left over count for nothing; one corner more does.
    let (answer, record) = between(length, 0x5A, |out| {
        lent::write_record(8_192, 1_024, &numbers[..3 * MOST + 2], out)
    });
    let expected = Answer {
        number: 0,
        count: MOST,
        width: 8_192,
        height: 1_024,
        ..Answer::default()
    };
    assert_eq!(answer, expected);
    assert_eq!(record[..13], [1, 6, 0, 0, 8, 0x20, 0, 4, 0, 0, 0x80, 0, 0]);
    for (at, number) in record[13..].chunks_exact(4).enumerate() {
        assert_eq!(number, long(at).to_be_bytes(), "number {at}");
    }
    assert_eq!(
        lent::write_record(8_192, 1_024, &numbers[..3 * MOST], &mut vec![0; length - 1]),
        refused(20)
    );
    let (answer, out) = between(length + 12, 0x5A, |out| {
        lent::write_record(8_192, 1_024, &numbers, out)
    });
    assert_eq!(answer, refused(18));
    assert!(untouched(&out, 0x5A));

    let (answer, list) = between(3 * MOST + 1, 0.5, |list| lent::read_record(&record, list));
    assert_eq!(answer, expected);
    assert!(list[..3 * MOST]
        .iter()
        .enumerate()
        .all(|(at, number)| number.to_bits() == long(at)));
    assert_eq!(list[3 * MOST], 0.5);
    let (answer, list) = between(3 * MOST - 1, 0.5, |list| lent::read_record(&record, list));
    assert_eq!(answer, refused(20));
    assert!(untouched(&list, 0.5));
    let found = record::parse(&record).expect("taken");
    assert_eq!(found.corners.len(), MOST);
    assert_eq!(record::bytes(&found).as_deref(), Ok(&record[..]));

    // A record of one corner more, right in all but that.
    let mut more = record;
    more.extend([0; 12]);
    let stated = big_endian(more.len() - 5);
    more[1..5].copy_from_slice(&stated);
    more[9..13].copy_from_slice(&big_endian(MOST + 1));
    let (answer, list) = between(3 * (MOST + 1), 0.5, |list| lent::read_record(&more, list));
    assert_eq!(
        (answer, second_reader(&more, 0).err()),
        (refused(18), Some(18))
    );
    assert!(untouched(&list, 0.5));
    assert_eq!(record::parse(&more), Err(Refusal::CornerCount));
}

/// What the finder gave is kept and comes back, whatever the frame.
#[test]
fn frames_are_kept() {
    let mut finder = Finder::new();
    let mut corners = 0;
    for (kind, width, height) in [
        (Kind::Board, 640, 480),
        (Kind::Board45, 333, 222),
        (Kind::Random, 200, 300),
        (Kind::Flat, 60, 50),
        (Kind::Flat, 12, 12),
    ] {
        let frame = frame(kind, width, height);
        let found = finder
            .find(image(&frame), &Settings::default())
            .expect("accepted");
        let kept = record::bytes(&found).expect("finite numbers");
        let back = record::parse(&kept).expect("a record");
        assert_eq!(
            (back.width, back.height),
            (2 * usize::from(width), 2 * usize::from(height))
        );
        let bits = |found: &Found| found.corners.iter().map(Corner::bits).collect::<Vec<_>>();
        assert_eq!(bits(&back), bits(&found));
        // A record does not keep what became of the candidates, and makes nothing up.
        assert!(found.verdicts.is_some() && back.verdicts.is_none());
        corners += back.corners.len();
    }
    assert!(corners > 100, "{corners}");
}

#[test]
fn sizes_that_no_record_has() {
    let found = |width: usize, height: usize| Found {
        corners: Vec::new(),
        width,
        height,
        verdicts: None,
    };
    assert!(record::bytes(&found(65_535, 65_535)).is_ok());
    for (width, height) in [(65_536, 0), (0, 65_536), (usize::MAX, usize::MAX)] {
        assert_eq!(
            record::bytes(&found(width, height)),
            Err(Refusal::SideTooLong)
        );
    }
}
