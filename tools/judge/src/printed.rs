//! What document 01's program prints for a file.

use std::fmt::Write;

use crate::answers::{accepted, Room};
use crate::outcome::Detector;

/// The printed text, as a caller with that room prints it.
pub fn printed(file: &[u8], room: Room) -> Vec<u8> {
    printed_by(&mut Detector::new(), file, room)
}

/// The same with buffers kept from frame to frame.
pub fn printed_by(detector: &mut Detector, file: &[u8], room: Room) -> Vec<u8> {
    match accepted(file, room) {
        Err(number) => format!("refused {number}\n").into_bytes(),
        Ok(frame) => {
            let found = detector.find(&frame);
            list(found.map.w, found.map.h, &found.corners, room.corners).into_bytes()
        }
    }
}

/// The list of an accepted frame, cut to the corners that there is room for.
pub fn list(w: usize, h: usize, corners: &[[f32; 3]], room: usize) -> String {
    let mut text = format!("{w} {h} {}\n", corners.len());
    for corner in corners.iter().take(room) {
        let [x, y, strength] = corner.map(f32::to_bits);
        writeln!(text, "{x:08X} {y:08X} {strength:08X}").expect("a string takes all");
    }
    if corners.len() > room {
        text.push_str("list full\n");
    }
    text
}
