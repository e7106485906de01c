//! Where the frames come from: made ones, files, archives.

use std::collections::VecDeque;
use std::fs::{self, File};
use std::io::{self, BufReader, Read};
use std::path::{Path, PathBuf};

use console::{shown, LONGEST};
use frames::{Kind, Named};
use judge::{damaged, made, made_arch, Sizes};
use steyrbunk::frame::{stated_length, LEAD};

/// A frame that is still to be opened, so that this can be done beside other work.
pub enum Job {
    Made {
        seed: u64,
        index: u64,
        sizes: Sizes,
    },
    /// A made frame file with some of its bytes changed, cut or added to.
    Damaged {
        seed: u64,
        index: u64,
    },
    /// An arch of made frames, some of them damaged.
    Arch {
        seed: u64,
        index: u64,
        sizes: Sizes,
    },
    /// A frame file, or a picture with the settings of the call.
    File(PathBuf, Named),
    /// A frame of an archive, or why there is none.
    Entry {
        archive: PathBuf,
        number: u64,
        file: Result<Vec<u8>, String>,
    },
}

/// What a job holds.
pub enum Opened {
    Frame(Vec<u8>),
    /// The camera count, and the frame files end to end.
    Arch(usize, Vec<u8>),
}

impl Job {
    pub fn name(&self) -> String {
        match self {
            Job::Made { seed, index, .. } => format!("seed {seed}, index {index}"),
            Job::Damaged { seed, index } => format!("seed {seed}, index {index}, damaged"),
            Job::Arch { seed, index, .. } => format!("seed {seed}, arch {index}"),
            Job::File(path, _) => shown(path),
            Job::Entry {
                archive, number, ..
            } => format!("{}, frame {number}", archive.display()),
        }
    }

    /// A name for a copy of the frame or arch.
    pub fn file_name(&self) -> PathBuf {
        let stem = |path: &Path| {
            path.file_stem()
                .unwrap_or_default()
                .to_string_lossy()
                .into_owned()
        };
        match self {
            Job::Made { seed, index, .. } | Job::Damaged { seed, index } => {
                format!("{seed}-{index:07}.frame").into()
            }
            Job::Arch { seed, index, .. } => format!("{seed}-{index:07}.arch").into(),
            Job::File(path, _) => format!("{}.frame", stem(path)).into(),
            Job::Entry {
                archive, number, ..
            } => format!("{}-{number:07}.frame", stem(archive)).into(),
        }
    }

    pub fn open(&mut self) -> Result<Opened, String> {
        let file = match self {
            Job::Made { seed, index, sizes } => made(*seed, *index, *sizes).frame.bytes(),
            Job::Damaged { seed, index } => damaged(*seed, *index),
            Job::Arch { seed, index, sizes } => {
                let (cameras, frames) = made_arch(*seed, *index, *sizes);
                return Ok(Opened::Arch(cameras, frames));
            }
            Job::File(path, named) => match console::read(path, LONGEST) {
                Ok(Some(file)) => framed(path, file, named)?,
                Ok(None) => return Err(format!("over {LONGEST} bytes, longer than any frame")),
                Err(error) => return Err(error.to_string()),
            },
            Job::Entry { file, .. } => std::mem::replace(file, Ok(Vec::new()))?,
        };
        Ok(Opened::Frame(file))
    }
}

/// Gives the frames out, a few at a time.
pub struct Source {
    queue: VecDeque<Job>,
    made: Option<Making>,
    archives: VecDeque<PathBuf>,
    archive: Option<(PathBuf, BufReader<File>, u64)>,
}

struct Making {
    seed: u64,
    next: u64,
    end: u64,
    sizes: Sizes,
    what: Makes,
}

/// What is made of a seed.
#[derive(Clone, Copy, PartialEq)]
pub enum Makes {
    Frames,
    /// Frames of which every second file is damaged.
    Damaged,
    Arches,
}

/// Both programs read frame files: a picture becomes one, with the settings of the call. What is neither is no frame.
fn framed(path: &Path, file: Vec<u8>, named: &Named) -> Result<Vec<u8>, String> {
    let is_named_frame = path
        .extension()
        .is_some_and(|ending| ending.eq_ignore_ascii_case("frame"));
    match frames::kind(&file) {
        Kind::Frame => Ok(file),
        _ if is_named_frame => Ok(file),
        _ => {
            let frame = frames::open(path, &file, named, false);
            let made = frame.and_then(|frame| frames::file(&frame));
            made.map_err(|problem| format!("not a frame: {problem}"))
        }
    }
}

/// Frames given out at once.
const SHARE: usize = 64;

impl Source {
    pub fn made(seed: u64, first: u64, count: u64, sizes: Sizes, what: Makes) -> Source {
        let end = first.saturating_add(count);
        let made = Making {
            seed,
            next: first,
            end,
            sizes,
            what,
        };
        Source::of(Vec::new(), Some(made), Vec::new())
    }

    /// Files, and folders of pictures and frame files; what cannot be looked into is told.
    pub fn files(paths: &[PathBuf], named: Named) -> (Source, Vec<String>) {
        let (mut jobs, mut problems) = (Vec::new(), Vec::new());
        for path in paths {
            if fs::metadata(path).is_ok_and(|data| data.is_dir()) {
                let inside = console::inside(path, &["frame", "pgm"]);
                jobs.extend(inside.files.into_iter().map(|file| Job::File(file, named)));
                let unread = inside.unread.iter();
                problems.extend(unread.map(|(path, error)| format!("{}: {error}", shown(path))));
            } else {
                jobs.push(Job::File(path.clone(), named));
            }
        }
        (Source::of(jobs, None, Vec::new()), problems)
    }

    /// Files that hold frame files end to end.
    pub fn archives(paths: &[PathBuf]) -> Source {
        Source::of(Vec::new(), None, paths.to_vec())
    }

    fn of(queue: Vec<Job>, made: Option<Making>, archives: Vec<PathBuf>) -> Source {
        Source {
            queue: queue.into(),
            made,
            archives: archives.into(),
            archive: None,
        }
    }

    /// How many frames there will be, if that is known.
    pub fn total(&self) -> Option<u64> {
        let made = self.made.as_ref().map_or(0, |made| made.end - made.next);
        self.archives
            .is_empty()
            .then_some(made + self.queue.len() as u64)
    }

    /// Some of the frames; fewer where they are read already and large.
    pub fn share(&mut self) -> Vec<Job> {
        let (mut jobs, mut bytes) = (Vec::new(), 0);
        while jobs.len() < SHARE && bytes < LONGEST {
            let Some(job) = self.next() else { break };
            if let Job::Entry { file: Ok(file), .. } = &job {
                bytes += file.len() as u64;
            }
            jobs.push(job);
        }
        jobs
    }

    fn next(&mut self) -> Option<Job> {
        if let Some(making) = self.made.as_mut().filter(|making| making.next < making.end) {
            let index = making.next;
            making.next += 1;
            let Making {
                seed, sizes, what, ..
            } = *making;
            return Some(match what {
                Makes::Arches => Job::Arch { seed, index, sizes },
                Makes::Damaged if index % 2 == 1 => Job::Damaged { seed, index },
                _ => Job::Made { seed, index, sizes },
            });
        }
        self.queue.pop_front().or_else(|| self.entry())
    }

    /// The next frame of an archive, which is left at its end or where it is damaged.
    fn entry(&mut self) -> Option<Job> {
        loop {
            if let Some((archive, mut reader, number)) = self.archive.take() {
                let file = match entry(&mut reader) {
                    Ok(None) => continue,
                    Ok(Some(file)) => Ok(file),
                    Err(error) => Err(error.to_string()),
                };
                if file.is_ok() {
                    self.archive = Some((archive.clone(), reader, number + 1));
                }
                return Some(Job::Entry {
                    archive,
                    number,
                    file,
                });
            }
            let archive = self.archives.pop_front()?;
            match File::open(&archive) {
                Ok(file) => self.archive = Some((archive, BufReader::new(file), 0)),
                Err(error) => {
                    let file = Err(error.to_string());
                    return Some(Job::Entry {
                        archive,
                        number: 0,
                        file,
                    });
                }
            }
        }
    }
}

/// One frame file by its stated length; a last one that is cut comes as it is.
fn entry(archive: &mut impl Read) -> io::Result<Option<Vec<u8>>> {
    let mut file = Vec::new();
    archive.by_ref().take(LEAD as u64).read_to_end(&mut file)?;
    let Ok(lead) = <&[u8; LEAD]>::try_from(file.as_slice()) else {
        return Ok((!file.is_empty()).then_some(file));
    };
    let length = stated_length(lead);
    if length > LONGEST {
        let text = format!(
            "states {length} bytes, more than any frame has; the rest of the archive is not read"
        );
        return Err(io::Error::new(io::ErrorKind::InvalidData, text));
    }
    archive.take(length - LEAD as u64).read_to_end(&mut file)?;
    Ok(Some(file))
}
