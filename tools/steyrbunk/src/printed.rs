//! A frame's outcome as document 01's program prints it.

use std::fmt::Write;

use crate::finder::Found;
use crate::refusal::Refusal;

/// Sizes and count in decimal, then a line of bits a corner; or `refused N`.
pub fn printed(outcome: &Result<Found, Refusal>) -> String {
    match outcome {
        Err(refusal) => format!("refused {}\n", refusal.number()),
        Ok(found) => list(found),
    }
}

fn list(found: &Found) -> String {
    let mut text = format!("{} {} {}\n", found.width, found.height, found.corners.len());
    for corner in &found.corners {
        let [x, y, strength] = corner.bits();
        writeln!(text, "{x:08X} {y:08X} {strength:08X}").expect("a string takes all");
    }
    text
}
