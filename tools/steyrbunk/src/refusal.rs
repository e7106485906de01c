//! Refusals: the documents' numbers, each with a name and a sentence.

use std::{error, fmt};

#[derive(Clone, Copy, Debug, PartialEq, Eq)]
pub enum Refusal {
    SideTooLong,
    ImageLength,
    TooManyPixels,
    RayRadius,
    BlurRadius,
    SuppressionRadius,
    Threshold,
    BufferTooShort,
    FileTooLong,
    FileTooShort,
    Version,
    StatedLength,
    Mode,
    FrameTooSmall,
    RecordLength,
    RecordVersion,
    CornerCount,
    NotFinite,
    OutputTooShort,
    Cameras,
    /// A number that a newer library gives and this wrapper does not know.
    Unknown(u32),
}

use Refusal::*;

const TABLE: [(u32, Refusal, &str); 20] = [
    (2, SideTooLong, "width or height is over 4,096 pixels"),
    (
        3,
        ImageLength,
        "the number of pixels is not width times height",
    ),
    (4, TooManyPixels, "there are over 8,388,608 working pixels"),
    (5, RayRadius, "the ray radius is over 7"),
    (6, BlurRadius, "the blur radius is over 3"),
    (7, SuppressionRadius, "the suppression radius is over 32"),
    (8, Threshold, "the threshold is not a number from 0 to 1"),
    (9, BufferTooShort, "a lent buffer is too short"),
    (10, FileTooLong, "the file is longer than there is room for"),
    (11, FileTooShort, "the frame file has under 20 bytes"),
    (12, Version, "the frame file's version is not 1"),
    (
        13,
        StatedLength,
        "the frame file does not have the length that it states",
    ),
    (
        14,
        Mode,
        "the mode is neither 0 (parabolic) nor 1 (Gaussian)",
    ),
    (
        15,
        FrameTooSmall,
        "the frame is too small to judge: its working width or height is at most twice (ray + suppression + 1); look at the crop, the camera mode and the radii, not at the panel",
    ),
    (
        16,
        RecordLength,
        "the record has under 13 bytes or not the length that it states",
    ),
    (17, RecordVersion, "the record's version is not 1"),
    (
        18,
        CornerCount,
        "the record's count and length disagree, or there are over 8,388,608 corners",
    ),
    (19, NotFinite, "a number of the list is not finite"),
    (20, OutputTooShort, "the output is too short"),
    (
        21,
        Cameras,
        "the camera count is not 2 to 8, or the list has less than one corner a camera",
    ),
];

impl Refusal {
    pub fn from_number(number: u32) -> Refusal {
        let row = TABLE.iter().find(|row| row.0 == number);
        row.map_or(Unknown(number), |row| row.1)
    }

    pub fn number(self) -> u32 {
        match self {
            Unknown(number) => number,
            known => known.row().0,
        }
    }

    pub fn sentence(self) -> &'static str {
        match self {
            Unknown(_) => "the library refused for a reason that this wrapper does not know",
            known => known.row().2,
        }
    }

    fn row(self) -> &'static (u32, Refusal, &'static str) {
        let row = TABLE.iter().find(|row| row.1 == self);
        row.expect("each named refusal stands in the table")
    }
}

impl fmt::Display for Refusal {
    fn fmt(&self, out: &mut fmt::Formatter<'_>) -> fmt::Result {
        write!(out, "refused {}: {}", self.number(), self.sentence())
    }
}

impl error::Error for Refusal {}
