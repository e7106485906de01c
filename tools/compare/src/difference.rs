//! What can differ between the two programs, each with the first place where it does.

use std::fmt;

use steyrbunk::Verdict;

/// A buffer or a number of a corner.
#[derive(Clone, Copy, Debug, PartialEq, Eq)]
pub enum What {
    Working,
    RowTable,
    ColumnTable,
    FallingTable,
    RisingTable,
    Response,
    Scratch,
    X,
    Y,
    Strength,
}

impl What {
    /// Floats are shown as their bits, whole numbers in decimal.
    fn is_float(self) -> bool {
        matches!(
            self,
            What::Response | What::Scratch | What::X | What::Y | What::Strength
        )
    }
}

impl fmt::Display for What {
    fn fmt(&self, out: &mut fmt::Formatter<'_>) -> fmt::Result {
        out.write_str(match self {
            What::Working => "working image",
            What::RowTable => "row table",
            What::ColumnTable => "column table",
            What::FallingTable => "table of falling diagonals",
            What::RisingTable => "table of rising diagonals",
            What::Response => "response",
            What::Scratch => "blur scratch",
            What::X => "x",
            What::Y => "y",
            What::Strength => "strength",
        })
    }
}

/// Floats are given by their bits.
#[derive(Clone, Debug, PartialEq)]
pub enum Difference {
    /// What the documents have for a frame, and ours; 0 where it is taken.
    Answer {
        theirs: u32,
        ours: u32,
    },
    /// What our map's own entry refuses a frame with that has a map by the documents.
    NoMap {
        ours: u32,
    },
    Sizes {
        theirs: (usize, usize),
        ours: (usize, usize),
    },
    /// The first entry of a buffer that differs.
    Entry {
        what: What,
        x: usize,
        y: usize,
        theirs: u32,
        ours: u32,
    },
    Count {
        theirs: usize,
        ours: usize,
    },
    /// How many candidates have a verdict, by the judge's reading of the documents; the Rust counts none.
    Verdict {
        verdict: Verdict,
        theirs: usize,
        ours: usize,
    },
    /// The first corner that only one list has, after all that both have; its bits.
    Alone {
        index: usize,
        theirs: bool,
        corner: [u32; 3],
    },
    /// The first line that the program `corners` prints otherwise than the Rust's list would be, counted from 1; empty where there is none.
    Printed {
        line: usize,
        theirs: String,
        ours: String,
    },
    /// The first line of a camera's outcome that is not a single call's, as it would be printed; counted from 1.
    Camera {
        line: usize,
        single: String,
        arch: String,
    },
    /// How many candidates of a camera have a verdict, and how many of a single call.
    CameraVerdict {
        verdict: Verdict,
        single: usize,
        arch: usize,
    },
    /// The first corner that differs.
    Corner {
        index: usize,
        what: What,
        theirs: u32,
        ours: u32,
    },
}

/// A number as a person reads it: bits and value of a float.
fn shown(what: What, number: u32) -> String {
    if what.is_float() {
        format!("{number:08X} ({})", f32::from_bits(number))
    } else {
        number.to_string()
    }
}

fn answered(number: u32) -> String {
    match number {
        0 => "takes the frame".to_string(),
        number => format!("refuses with {number}"),
    }
}

/// The Rust refuses nothing by itself.
fn due(number: u32) -> String {
    match number {
        0 => "the Rust takes the frame".to_string(),
        number => format!("the documents refuse with {number}"),
    }
}

impl fmt::Display for Difference {
    fn fmt(&self, out: &mut fmt::Formatter<'_>) -> fmt::Result {
        match self {
            Difference::Answer { theirs, ours } => {
                write!(out, "answer: {}, ours {}", due(*theirs), answered(*ours))
            }
            Difference::NoMap { ours } => {
                write!(
                    out,
                    "map: the Rust has one, our map's entry {}",
                    answered(*ours)
                )
            }
            Difference::Sizes { theirs, ours } => {
                write!(out, "working sizes: the Rust {theirs:?}, ours {ours:?}")
            }
            Difference::Entry {
                what,
                x,
                y,
                theirs,
                ours,
            } => {
                let (theirs, ours) = (shown(*what, *theirs), shown(*what, *ours));
                write!(out, "{what} at ({x}, {y}): the Rust {theirs}, ours {ours}")
            }
            Difference::Count { theirs, ours } => {
                write!(out, "count: the Rust {theirs}, ours {ours}")
            }
            Difference::Verdict {
                verdict,
                theirs,
                ours,
            } => {
                let words = verdict.words();
                write!(out, "{words}: the judge counts {theirs}, ours {ours}")
            }
            Difference::CameraVerdict {
                verdict,
                single,
                arch,
            } => {
                let words = verdict.words();
                write!(
                    out,
                    "{words}: a single call counts {single}, the arch {arch}"
                )
            }
            Difference::Printed { line, theirs, ours } => {
                write!(
                    out,
                    "line {line}: the Rust's would be '{theirs}', the program prints '{ours}'"
                )
            }
            Difference::Camera { line, single, arch } => {
                write!(
                    out,
                    "line {line}: a single call's would be '{single}', the arch's is '{arch}'"
                )
            }
            Difference::Alone {
                index,
                theirs,
                corner: [x, y, strength],
            } => {
                let whose = if *theirs { "the Rust's" } else { "ours" };
                write!(
                    out,
                    "corner {index} is {whose} alone: {x:08X} {y:08X} {strength:08X}"
                )
            }
            Difference::Corner {
                index,
                what,
                theirs,
                ours,
            } => {
                let (theirs, ours) = (shown(*what, *theirs), shown(*what, *ours));
                write!(
                    out,
                    "corner {index}, {what}: the Rust {theirs}, ours {ours}"
                )
            }
        }
    }
}
