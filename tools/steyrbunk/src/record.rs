//! The corner record of document 02: a frame's corners and working sizes as bytes, to be kept.
//!
//! [`bytes`] and [`parse`] own what they give; [`lent::write_record`] and [`lent::read_record`] are beneath them.

use crate::finder::{corners, Corner, Found};
use crate::lent;
use crate::refusal::Refusal;

/// The usual ending of a record's file.
pub const ENDING: &str = "record";
/// Bytes before the corners.
pub const HEAD: usize = 13;
/// Bytes of a corner.
pub const CORNER: usize = 12;

/// Bytes of a record of so many corners.
pub const fn length(corners: usize) -> usize {
    HEAD + CORNER * corners
}

/// The record of a frame's corners, or 18 or 19: no list that a finder gave is refused.
/// Sizes that two bytes cannot hold, which are no finder's either, are refused as sides that are too long.
pub fn bytes(found: &Found) -> Result<Vec<u8>, Refusal> {
    let side = |side: usize| u16::try_from(side).map_err(|_| Refusal::SideTooLong);
    let (width, height) = (side(found.width)?, side(found.height)?);
    let list: Vec<f32> = found.corners.iter().flat_map(numbers).collect();
    let mut record = vec![0; length(found.corners.len())];
    lent::write_record(width, height, &list, &mut record).accepted()?;
    Ok(record)
}

/// The corners and sizes of a record, or 16 to 19. It has no verdicts.
pub fn parse(record: &[u8]) -> Result<Found, Refusal> {
    // A record that is taken has as many corners as its length says, so the list is never too short.
    let room = record.len().saturating_sub(HEAD) / CORNER;
    let mut list = vec![0.0; 3 * room.min(limits::RECORD_CORNERS)];
    let answer = lent::read_record(record, &mut list).accepted()?;
    Ok(Found {
        corners: corners(&list, answer.count),
        width: answer.width,
        height: answer.height,
        verdicts: None,
    })
}

fn numbers(corner: &Corner) -> [f32; 3] {
    [corner.x, corner.y, corner.strength]
}
