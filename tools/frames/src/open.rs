//! A frame from a file: a PGM picture with the settings of the call, or a frame file with its own.

use std::fmt;
use std::path::Path;

use steyrbunk::frame::{bytes, Frame};
use steyrbunk::{Refusal, Settings};

use crate::kinds::{conversion, kind, Kind};
use crate::named::Named;
use crate::pgm;

/// Why there is no list of a file.
#[derive(Clone, Debug)]
pub enum Problem {
    Refused(Refusal),
    /// The same, with what would help.
    Advised(Refusal, String),
    /// Neither a picture that is known nor a frame file of the known version.
    Strange,
    /// The file cannot be read, or is no picture; results cannot be written.
    Damaged(String),
}

impl fmt::Display for Problem {
    fn fmt(&self, out: &mut fmt::Formatter<'_>) -> fmt::Result {
        match self {
            Problem::Refused(refusal) => refusal.fmt(out),
            Problem::Advised(refusal, advice) => write!(out, "{refusal}; {advice}"),
            Problem::Strange => write!(
                out,
                "{}, and its opening is that of no picture that is known",
                Refusal::Version
            ),
            Problem::Damaged(text) => out.write_str(text),
        }
    }
}

impl Problem {
    /// The refusal by the documents' tables, where it is one.
    pub fn refusal(&self) -> Option<Refusal> {
        match self {
            Problem::Refused(refusal) | Problem::Advised(refusal, _) => Some(*refusal),
            Problem::Strange => Some(Refusal::Version),
            Problem::Damaged(_) => None,
        }
    }
}

impl From<Refusal> for Problem {
    fn from(refusal: Refusal) -> Problem {
        Problem::Refused(refusal)
    }
}

impl From<std::io::Error> for Problem {
    fn from(error: std::io::Error) -> Problem {
        Problem::Damaged(error.to_string())
    }
}

impl From<String> for Problem {
    fn from(text: String) -> Problem {
        Problem::Damaged(text)
    }
}

/// The picture and settings in a file's bytes; `replace` puts the named settings over a frame file's own. The path is for the words alone.
pub fn open<'a>(
    path: &Path,
    file: &'a [u8],
    named: &Named,
    replace: bool,
) -> Result<Frame<'a>, Problem> {
    match kind(file) {
        Kind::Pgm => {
            let image = pgm::parse(file).map_err(|damage| match damage {
                pgm::Damage::Deep(text) => Problem::Damaged(converted(&text, path)),
                pgm::Damage::Broken(text) => Problem::Damaged(text),
            })?;
            let settings = named.over(Settings::default());
            Ok(Frame { image, settings })
        }
        Kind::Other(name) => Err(Problem::Damaged(converted(name, path))),
        Kind::Unknown if file.len() >= steyrbunk::frame::HEAD => Err(Problem::Strange),
        Kind::Frame | Kind::Unknown => {
            let mut frame = Frame::parse(file)?;
            if replace {
                frame.settings = named.over(frame.settings);
            }
            Ok(frame)
        }
    }
}

/// The frame file of a frame, so that every program reads the very same bytes.
pub fn file(frame: &Frame) -> Result<Vec<u8>, Problem> {
    bytes(frame).ok_or_else(|| {
        Problem::Damaged("a frame file has no room for such sizes or settings".to_string())
    })
}

fn converted(name: &str, path: &Path) -> String {
    format!(
        "{name}: only 8-bit grey PGM (P5) and frame files are taken; {} makes one",
        conversion(path)
    )
}
