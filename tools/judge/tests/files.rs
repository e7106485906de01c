//! Frame files: there and back, the refusals in their order, the printed text, archives.

use judge::{accepted, document_frame, made, printed, split, Frame, Room, Sizes};

#[test]
fn there_and_back() {
    for index in 0..500 {
        let frame = made(3, index, Sizes::PROGRAM).frame;
        assert_eq!(Frame::parse(&frame.bytes()), Ok(frame));
    }
}

fn text(bytes: &[u8]) -> String {
    String::from_utf8(printed(bytes, Room::PROGRAM)).unwrap()
}

/// The document's frame with some bytes changed.
fn with(changes: &[(usize, u8)]) -> Vec<u8> {
    let mut bytes = document_frame().bytes();
    changes.iter().for_each(|(at, value)| bytes[*at] = *value);
    bytes
}

#[test]
fn the_files_own_refusals() {
    assert_eq!(text(&[]), "refused 11\n");
    assert_eq!(text(&[1]), "refused 11\n");
    assert_eq!(text(&with(&[])[..19]), "refused 11\n");
    assert_eq!(text(&with(&[])[..20]), "refused 13\n");
    assert_eq!(text(&[9; 2_325]), "refused 10\n");
    assert_eq!(text(&[9; 2_324]), "refused 12\n");
    assert_eq!(text(&with(&[(0, 0)])), "refused 12\n");
    assert_eq!(text(&with(&[(0, 2), (4, 0), (12, 2)])), "refused 12\n");
    assert_eq!(text(&with(&[(4, 63)])), "refused 13\n");
    assert_eq!(text(&with(&[(1, 255), (12, 2)])), "refused 13\n");
    assert_eq!(text(&with(&[(12, 2), (5, 255)])), "refused 14\n");
    assert_eq!(text(&with(&[(12, 1)]))[..6], *"7 7 1\n");
}

/// All faults at once, then taken away from the lowest on.
#[test]
fn the_tables_refusals() {
    let all = [
        (5, 255),
        (6, 255),
        (7, 255),
        (8, 255),
        (9, 8),
        (11, 4),
        (13, 33),
        (16, 255),
    ];
    assert_eq!(text(&with(&all)), "refused 2\n");
    let sized = [(5, 16), (6, 0), (7, 16), (8, 0)];
    assert_eq!(text(&with(&[&sized, &all[4..]].concat())), "refused 3\n");
    assert_eq!(text(&with(&all[4..])), "refused 5\n");
    assert_eq!(text(&with(&all[5..])), "refused 6\n");
    assert_eq!(text(&with(&all[6..])), "refused 7\n");
    assert_eq!(text(&with(&all[7..])), "refused 8\n");
    let room = Room {
        pixels: 48,
        ..Room::PROGRAM
    };
    // A window that the frame is too small for.
    let small = (13, 2);
    assert_eq!(accepted(&with(&[all[7], small]), room), Err(8));
    assert_eq!(accepted(&with(&[small]), room), Err(15));
    assert_eq!(accepted(&with(&[]), room), Err(9));
}

#[test]
fn thresholds() {
    let answer = |threshold| {
        text(
            &Frame {
                threshold,
                ..document_frame()
            }
            .bytes(),
        )
    };
    for taken in [0, 0x8000_0000, 1, 0x3F80_0000] {
        assert!(answer(taken).starts_with("7 7 "), "{taken:08X}");
    }
    for refused in [
        0x3F80_0001,
        0x8000_0001,
        0x7F80_0000,
        0xFF80_0000,
        0x7FC0_0000,
        0xFFC0_0001,
    ] {
        assert_eq!(answer(refused), "refused 8\n", "{refused:08X}");
    }
}

#[test]
fn a_full_list() {
    let none = Room {
        corners: 0,
        ..Room::PROGRAM
    };
    assert_eq!(printed(&with(&[]), none), b"7 7 1\nlist full\n");
}

#[test]
fn archives() {
    let files: Vec<Vec<u8>> = (0..20).map(|index| judge::make(4, index)).collect();
    let whole = files.concat();
    assert_eq!(split(&whole), files);
    let cut = split(&whole[..whole.len() - 1]);
    assert_eq!(cut.len(), 20);
    assert_eq!(accepted(cut[19], Room::FREE), Err(13));
}
