//! What a call goes over: frames, the records that were kept of frames, or the cameras of an arch.

use std::path::Path;

use console::LONGEST;
use frames::Problem;
use steyrbunk::{arch, record, Refusal, Verdicts};

#[derive(Clone, Copy, PartialEq, Eq)]
pub enum Source {
    Frames,
    Records,
    /// A file for each camera, or one file with the frame files of so many end to end.
    Arch(Option<usize>),
}

/// The frame files of an arch in one file.
const LONGEST_ARCH: u64 = arch::MOST as u64 * LONGEST;
/// A record with bytes behind it is read up to here, so that it gets its own refusal.
const BEHIND: usize = 65_536;
const LONGEST_RECORD: u64 = (record::length(limits::RECORD_CORNERS) + BEHIND) as u64;

impl Source {
    /// What is counted, for a person.
    pub fn things(self) -> &'static str {
        match self {
            Source::Frames => "frames",
            Source::Records => "records",
            Source::Arch(_) => "cameras",
        }
    }

    pub fn is_arch(self) -> bool {
        matches!(self, Source::Arch(_))
    }

    /// What is told of the candidates where there is no list: six zeros of a frame; of a record nothing is known, whether it is taken or
    /// not.
    pub fn unsearched(self) -> Option<Verdicts> {
        match self {
            Source::Frames | Source::Arch(_) => Some(Verdicts::NONE),
            Source::Records => None,
        }
    }

    /// Endings of the files that are looked for in folders.
    pub fn endings(self) -> &'static [&'static str] {
        match self {
            Source::Frames | Source::Arch(_) => &["pgm", "frame"],
            Source::Records => &[record::ENDING],
        }
    }

    /// The words for a folder without such a file.
    pub fn none(self) -> String {
        format!("no .{} file in it", self.endings().join(" or ."))
    }

    /// The bytes of a file, or of standard input, that is not longer than any that is taken.
    pub fn read(self, path: Option<&Path>) -> Result<Vec<u8>, Problem> {
        let longest = match self {
            Source::Frames | Source::Arch(None) => LONGEST,
            Source::Records => LONGEST_RECORD,
            Source::Arch(Some(_)) => LONGEST_ARCH,
        };
        let file = match path {
            Some(path) => console::read(path, longest),
            None => console::read_input(longest),
        };
        file?.ok_or_else(|| self.too_long())
    }

    /// What is read to no end is not shown to the library: there is no number for a record or the frames of an arch that long.
    fn too_long(self) -> Problem {
        let longer = |what: &str| Problem::Damaged(format!("longer than any {what} taken"));
        match self {
            Source::Frames | Source::Arch(None) => Problem::Refused(Refusal::FileTooLong),
            Source::Records => longer("record that is"),
            Source::Arch(Some(_)) => longer("eight frames that are"),
        }
    }
}
