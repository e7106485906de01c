//! The words of the call.

use std::path::PathBuf;
use std::thread::available_parallelism;

use console::{Usage, Word, Words};
use frames::{settings_help, Named};

use crate::marks;
use crate::output::Format;
use crate::source::Source;

/// The help, with the settings that all commands share.
pub fn help() -> String {
    HELP.replace("SETTINGS\n", &settings_help())
}

const HELP: &str = "\
steyrbunk finds the corners of chessboard panels in camera frames.

  steyrbunk [OPTIONS] PATH...
  steyrbunk arch [OPTIONS] FILE FILE...        all cameras of an arch in one call
  steyrbunk arch [OPTIONS] --cameras N FILE
  steyrbunk read [OPTIONS] PATH...             the lists of records that were kept
  steyrbunk frame [SETTINGS] PICTURE > FILE    the frame file of a picture

A PATH is an 8-bit PGM picture (P5), a frame file, or a folder; of a folder, every .pgm and .frame
file in it and below it is taken. - is standard input. Lists go to standard output, messages to
standard error. With read, a PATH is a record or a folder, of which every .record file is taken.

Output
  --format list    sizes and count, then x, y and strength of each corner as bits in hex (default);
                   with several files, a line '# NAME' goes before each list
  --format csv     file, corner, x, y, strength; one line a corner
  --format json    one object a frame, each on a line of its own
  --format record  bytes to be kept: sizes, count and the corners bit for bit; of several frames
                   only with --out or --beside
  --out FOLDER     writes the results into the folder, one file a frame: NAME.corners, NAME.csv,
                   NAME.json or NAME.record, where NAME is the frame's whole file name, in the same
                   subfolders as the frames; of several folders each has its own name in front
  --beside         writes them beside each frame instead
  --draw svg       draws the corners over the picture too, as NAME.svg; needs --out or --beside
  --draw png       the same as NAME.png
  --why            says of each frame, on standard error, how many candidates failed which rule and
                   what that may mean; with --draw it also marks them in a drawing NAME.why.png,
                   which has a legend; csv gets six columns more, and a line without a corner for a
                   frame that has none
  --jobs N         frames at a time; default: as many as there are cores
  --quiet          no progress
  --version        the version, and nothing else

SETTINGS
  --override                 puts the settings named in the call over those of frame files

steyrbunk arch takes two to eight files, pictures or frame files, each a camera's, in the order in
which they are named; or, with --cameras, one file with the frame files of N cameras end to end,
which have their own settings. Each camera is printed with its number, as a list or as refused, in
every format: list has a line '# camera I: FILE' before each; csv the columns camera, file, answer,
words, corner, x, y, strength, and one line for a camera without corners; json a field camera.
Results are NAME.I.corners and so on; --beside wants all files in one folder. A file that is no
whole frame file and no picture is answered as it is alone, and the other cameras are found as ever.
A number of cameras that is not 2 to 8 is refused, 21.

steyrbunk read prints the lists of records as those of their frames, in every format and by the same
rules, but for what a record does not have: the frame's name (the record's stands in its place), the
settings, the picture and the verdicts, so that --draw, --why and settings are wrong words there. A
damaged record is refused, by a number from 16 to 19, and has no list. A run takes away the results
of the run before in its folder: each dawn that is to be kept needs a folder of its own, and read
writes to another.

Verdicts. Working pixels that are not too near to an edge are candidates. Each fails one of five
rules first or is kept: not above the floor, beaten by a neighbour, too few positive neighbours, too
flat, wrong curvature. json and run.json have the six counts of every frame, all 0 of one that was
not searched.

Places are input pixels; the middle of the upper left pixel is 0, 0. A name with control characters
or bytes that are no text is shown with \\xNN in their place.

A run is whole or it is none. With --out and --beside the last thing written is run.json, in the
output folder, or in the folder that was named or the folder of a file that was named: it lists
every frame of the run with its answer and its results. Without a run.json no list counts; with one,
every list that it names is of that run. The first thing that a run does is to take away the
run.json of the run before and all results that it names. Nothing else is removed: a file that is in
a result's place stays, is named, and its frame has no list. A run that is cut off leaves a
run.plan, by which the next run clears up. Two runs do not write to one folder at a time.

Status. 0 if every frame has a list, which may be empty; 1 if one was refused, damaged, gone since
the run before, or could not be read or written: its name and the reason, with the number of a
refusal, are on standard error; 2 if the words of the call are wrong.
";

/// What is asked for.
pub enum Call {
    /// The lists of frames, of records, or of the cameras of an arch.
    List(Options),
    Frame(FrameCall),
    Version,
}

#[derive(Clone, Copy, PartialEq, Eq)]
pub enum Drawing {
    Svg,
    Png,
}

impl Drawing {
    /// The ending of its file.
    pub fn ending(self) -> &'static str {
        match self {
            Drawing::Svg => "svg",
            Drawing::Png => "png",
        }
    }
}

/// Where the results of frames go.
pub enum Place {
    Folder(PathBuf),
    Beside,
}

pub struct Options {
    pub source: Source,
    pub paths: Vec<PathBuf>,
    pub format: Format,
    pub place: Option<Place>,
    pub drawings: Vec<Drawing>,
    pub why: bool,
    pub jobs: usize,
    pub quiet: bool,
    pub named: Named,
    pub replace: bool,
}

/// A frame file is asked for.
pub struct FrameCall {
    pub picture: PathBuf,
    pub named: Named,
}

pub fn call(mut words: Words) -> Result<Call, Usage> {
    let mut options = Options {
        source: Source::Frames,
        paths: Vec::new(),
        format: Format::List,
        place: None,
        drawings: Vec::new(),
        why: false,
        jobs: available_parallelism().map_or(1, usize::from),
        quiet: false,
        named: Named::default(),
        replace: false,
    };
    let mut first = true;
    while let Some(word) = words.word()? {
        match word {
            Word::Path(path) if first && path.as_os_str() == "frame" => return frame(words),
            Word::Path(path) if first && path.as_os_str() == "read" => {
                options.source = Source::Records;
            }
            Word::Path(path) if first && path.as_os_str() == "arch" => {
                options.source = Source::Arch(None);
            }
            Word::Path(path) => options.paths.push(path),
            Word::Flag(flag) if flag == "--version" => return Ok(Call::Version),
            Word::Flag(flag) => options.flag(&flag, &mut words)?,
        }
        first = false;
    }
    match options.source {
        Source::Frames => options.suit_frames()?,
        Source::Records => options.suit_records()?,
        Source::Arch(together) => options.suit_arch(together)?,
    }
    Ok(Call::List(options))
}

fn frame(mut words: Words) -> Result<Call, Usage> {
    let (mut pictures, mut named) = (Vec::new(), Named::default());
    while let Some(word) = words.word()? {
        match word {
            Word::Path(path) => pictures.push(path),
            Word::Flag(flag) => {
                if !named.flag(&flag, &mut words)? {
                    return Usage::wrong(format!("{flag} is not known with frame"));
                }
            }
        }
    }
    match <[PathBuf; 1]>::try_from(pictures) {
        Ok([picture]) => Ok(Call::Frame(FrameCall { picture, named })),
        Err(_) => Usage::wrong("frame wants one picture; the folder of that name is ./frame"),
    }
}

impl Options {
    fn suit_frames(&self) -> Result<(), Usage> {
        if self.paths.is_empty() {
            return Usage::wrong("no picture, frame file or folder is named");
        }
        if self.place.is_none() && !self.drawings.is_empty() {
            return Usage::wrong("--draw needs --out or --beside");
        }
        Ok(())
    }

    /// Frame files end to end go to the library as they stand.
    fn suit_arch(&self, together: Option<usize>) -> Result<(), Usage> {
        if self.paths.is_empty() {
            return Usage::wrong("arch wants a file a camera; the folder of that name is ./arch");
        }
        if together.is_some() && self.paths.len() > 1 {
            return Usage::wrong("--cameras wants one file, with the frame files end to end");
        }
        if together.is_some() && self.are_settings_named() {
            return Usage::wrong("settings do not go with --cameras: frame files have their own");
        }
        self.suit_frames()
    }

    /// Whether candidates are drawn too.
    pub fn are_marks_drawn(&self) -> bool {
        self.why && !self.drawings.is_empty()
    }

    /// The endings of a frame's results: the list's, the drawings', and that of the marks.
    pub fn endings(&self) -> Vec<&'static str> {
        let drawings = self.drawings.iter().map(|drawing| drawing.ending());
        let marks = self.are_marks_drawn().then_some(marks::ENDING);
        std::iter::once(self.format.ending())
            .chain(drawings)
            .chain(marks)
            .collect()
    }

    fn are_settings_named(&self) -> bool {
        self.named != Named::default() || self.replace
    }

    /// A record has neither a picture nor settings.
    fn suit_records(&self) -> Result<(), Usage> {
        if self.paths.is_empty() {
            return Usage::wrong(
                "read wants a record or a folder; the folder of that name is ./read",
            );
        }
        if !self.drawings.is_empty() {
            return Usage::wrong("--draw does not go with read: a record has no picture");
        }
        if self.why {
            return Usage::wrong(
                "--why does not go with read: a record does not keep the verdicts",
            );
        }
        if self.are_settings_named() {
            return Usage::wrong("settings do not go with read: the corners are found already");
        }
        Ok(())
    }

    fn flag(&mut self, flag: &str, words: &mut Words) -> Result<(), Usage> {
        match flag {
            "--format" => {
                let name: String = words.value(flag, "list, csv, json or record")?;
                let format = Format::from_name(&name);
                self.format =
                    format.ok_or_else(|| Usage::Wrong(format!("no format is called {name}")))?;
            }
            "--out" => self.write_to(Place::Folder(words.path(flag, "a folder")?))?,
            "--beside" => self.write_to(Place::Beside)?,
            "--draw" => {
                let drawing = match words.value::<String>(flag, "svg or png")?.as_str() {
                    "svg" => Drawing::Svg,
                    "png" => Drawing::Png,
                    name => return Usage::wrong(format!("no drawing is called {name}")),
                };
                if !self.drawings.contains(&drawing) {
                    self.drawings.push(drawing);
                }
            }
            "--cameras" => match &mut self.source {
                Source::Arch(together) => {
                    *together = Some(words.value(flag, "a number of cameras")?);
                }
                _ => return Usage::wrong("--cameras goes with arch alone"),
            },
            "--jobs" => match words.value(flag, "a number from 1 up")? {
                0 => return Usage::wrong("--jobs wants a number from 1 up, not '0'"),
                jobs => self.jobs = jobs,
            },
            "--why" => self.why = true,
            "--quiet" => self.quiet = true,
            "--override" => self.replace = true,
            _ => {
                if !self.named.flag(flag, words)? {
                    return Usage::wrong(format!("{flag} is not known"));
                }
            }
        }
        Ok(())
    }

    fn write_to(&mut self, place: Place) -> Result<(), Usage> {
        match self.place.replace(place) {
            None => Ok(()),
            Some(_) => Usage::wrong("results go to one place: --out or --beside"),
        }
    }
}
