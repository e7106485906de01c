//! Frames taken up one by one, on several cores, and told of in their order.

use std::collections::BTreeMap;
use std::path::{Path, PathBuf};
use std::sync::atomic::{AtomicUsize, Ordering};
use std::sync::mpsc;
use std::thread;
use std::time::{Duration, Instant};

use frames::{Kind, Named, Problem};
use steyrbunk::frame::Frame as Opened;
use steyrbunk::{record, Finder, Found, Image, Refusal};

use crate::digest::sha256;
use crate::draw;
use crate::gather::Frame;
use crate::marks;
use crate::options::{Drawing, Options};
use crate::record::{End, Read, Record};
use crate::site::Site;
use crate::source::Source;
use crate::why;

/// What was made of a frame.
pub struct Done {
    pub record: Record,
    /// For standard output.
    pub text: Vec<u8>,
    /// For a person.
    pub notes: Vec<String>,
}

impl Done {
    /// Nothing yet.
    pub fn new(frame: &Frame, source: Source) -> Done {
        Done {
            record: Record {
                name: frame.name.as_os_str().as_encoded_bytes().to_vec(),
                path: frame.whole_path(),
                camera: frame.camera,
                read: None,
                end: End::Gone,
                verdicts: source.unsearched(),
                why: None,
                results: Vec::new(),
                time: Duration::ZERO,
            },
            text: Vec::new(),
            notes: Vec::new(),
        }
    }
}

/// A frame with the results that it is to have, or why it can have none.
pub struct Planned<'a> {
    pub frame: &'a Frame,
    pub results: Result<Vec<PathBuf>, String>,
}

impl Planned<'_> {
    pub fn results(&self) -> Result<&[PathBuf], Problem> {
        let results = self.results.as_deref();
        results.map_err(|text| Problem::Damaged(text.clone()))
    }
}

/// Takes up all frames; `tell` hears of each in their order.
pub fn work(
    options: &Options,
    site: Option<&Site>,
    planned: &[Planned],
    mut tell: impl FnMut(Done),
) {
    let worker = || Worker {
        options,
        site,
        finder: Finder::new(),
    };
    if let Source::Arch(together) = options.source {
        let all = worker().arch(together, planned);
        return all.into_iter().for_each(tell);
    }
    let next = AtomicUsize::new(0);
    let (sender, receiver) = mpsc::channel();
    thread::scope(|scope| {
        for _ in 0..options.jobs.clamp(1, planned.len().max(1)) {
            let (sender, next, worker) = (sender.clone(), &next, &worker);
            scope.spawn(move || {
                let mut worker = worker();
                loop {
                    let at = next.fetch_add(1, Ordering::Relaxed);
                    let Some(planned) = planned.get(at) else {
                        break;
                    };
                    if sender.send((at, worker.take_up(planned))).is_err() {
                        break;
                    }
                }
            });
        }
        drop(sender);
        let (mut waiting, mut turn) = (BTreeMap::new(), 0);
        for (at, done) in receiver {
            waiting.insert(at, done);
            while let Some(done) = waiting.remove(&turn) {
                turn += 1;
                tell(done);
            }
        }
    });
}

pub struct Worker<'a> {
    pub options: &'a Options,
    site: Option<&'a Site>,
    pub finder: Finder,
}

impl Worker<'_> {
    fn take_up(&mut self, planned: &Planned) -> Done {
        let started = Instant::now();
        let mut done = Done::new(planned.frame, self.options.source);
        let outcome = self.outcome(planned, &mut done);
        self.end(planned.frame, outcome, &mut done);
        done.record.time = started.elapsed();
        done
    }

    /// How a frame ended; where it has no list, what was written of it is taken back.
    pub fn end(&self, frame: &Frame, outcome: Result<Found, Problem>, done: &mut Done) {
        done.record.end = match outcome {
            Ok(found) => {
                done.record.verdicts = found.verdicts;
                End::Found {
                    width: found.width,
                    height: found.height,
                    count: found.corners.len(),
                }
            }
            Err(problem) => {
                if let Some(site) = self.site {
                    done.record
                        .results
                        .iter()
                        .for_each(|result| site.unwrite(result));
                    done.record.results.clear();
                }
                done.notes.push(problem.to_string());
                done.text = self.options.problem(frame, &problem).into_bytes();
                done.record.why = self.options.why.then(why::unsearched);
                End::Problem(problem)
            }
        };
        let why = done.record.why.as_ref();
        done.notes.extend(why.map(|words| format!("why: {words}")));
    }

    /// Reads, finds, draws and writes.
    fn outcome(&mut self, planned: &Planned, done: &mut Done) -> Result<Found, Problem> {
        planned.results()?;
        let file = self.read(planned.frame, done)?;
        let (found, opened) = match self.options.source {
            Source::Records => (record::parse(&file)?, None),
            _ => self.found(planned.frame, &file, done)?,
        };
        self.hand_on(planned, found, opened, done)
    }

    /// The bytes of a frame's file.
    pub fn read(&self, frame: &Frame, done: &mut Done) -> Result<Vec<u8>, Problem> {
        let file = self.options.source.read(frame.path.as_deref())?;
        done.record.read = Some(Read {
            bytes: file.len(),
            sha256: sha256(&file),
            settings: None,
        });
        Ok(file)
    }

    /// The corners of a frame, and the frame.
    fn found<'a>(
        &mut self,
        frame: &Frame,
        file: &'a [u8],
        done: &mut Done,
    ) -> Result<(Found, Option<Opened<'a>>), Problem> {
        let opened = self.opened(frame, file, done)?;
        let found = self.finder.find(opened.image, &opened.settings);
        let found =
            found.map_err(|refusal| directed(advised(refusal, Some(&opened)), frame.spoken()))?;
        Ok((found, Some(opened)))
    }

    /// The picture in a file with the settings that it is searched with.
    pub fn opened<'a>(
        &self,
        frame: &Frame,
        file: &'a [u8],
        done: &mut Done,
    ) -> Result<Opened<'a>, Problem> {
        let Options { named, replace, .. } = self.options;
        let own = frames::kind(file) == Kind::Frame;
        if own && !*replace && *named != Named::default() {
            done.notes.push(
                "note: a frame file has its own settings; --override replaces them".to_string(),
            );
        }
        let path = frame.spoken();
        let opened = frames::open(path, file, named, *replace);
        let opened = opened.map_err(|problem| directed(problem, path))?;
        if let Some(read) = &mut done.record.read {
            read.settings = own.then_some(opened.settings);
        }
        Ok(opened)
    }

    /// What was found, as text and into the folder; where marks are drawn, the finder's last frame is this one.
    pub fn hand_on(
        &self,
        planned: &Planned,
        found: Found,
        opened: Option<Opened>,
        done: &mut Done,
    ) -> Result<Found, Problem> {
        let results = planned.results()?;
        done.text = self.options.list(planned.frame, &found)?;
        if let Some(site) = self.site {
            self.write(site, results, opened, &found, done)?;
        }
        let asked = opened.filter(|_| self.options.why);
        let told = asked.and_then(|opened| Some(why::words(found.verdicts?, &opened.settings)));
        done.record.why = told;
        Ok(found)
    }

    /// The list into the folder, and the drawings where there is a picture.
    fn write(
        &self,
        site: &Site,
        results: &[PathBuf],
        opened: Option<Opened>,
        found: &Found,
        done: &mut Done,
    ) -> Result<(), Problem> {
        let list = [self.options.head().as_bytes(), &done.text].concat();
        let mut results = results.iter();
        let mut write = |content: &[u8]| {
            let result = results.next().expect("a name for each result");
            done.record.results.push(result.clone());
            site.write(result, content)
        };
        write(&list)?;
        let Some(Opened { image, .. }) = opened else {
            return Ok(());
        };
        for drawing in &self.options.drawings {
            write(&drawn(drawing, image, found))?;
        }
        if self.options.are_marks_drawn() {
            write(&self.marks(found)?)?;
        }
        Ok(())
    }

    /// Why pixels are no corners, drawn from the finder's last frame.
    fn marks(&self, found: &Found) -> Result<Vec<u8>, Problem> {
        let candidates = self.finder.candidates().zip(found.verdicts);
        let (candidates, told) = candidates.ok_or("the frame was not searched".to_string())?;
        let map = self.finder.map();
        Ok(marks::drawn(
            &candidates,
            map.working,
            (map.width, map.height),
            told,
        )?)
    }
}

fn drawn(drawing: &Drawing, image: Image, found: &Found) -> Vec<u8> {
    match drawing {
        Drawing::Svg => draw::svg(image, &found.corners),
        Drawing::Png => draw::picture(image, &found.corners),
    }
}

/// A record looks like a frame file by its first byte; its name tells what it is.
pub fn directed(problem: Problem, path: &Path) -> Problem {
    match problem {
        Problem::Refused(refusal) | Problem::Advised(refusal, _)
            if path.extension() == Some(record::ENDING.as_ref()) =>
        {
            let advice = "a record is printed by steyrbunk read";
            Problem::Advised(refusal, advice.to_string())
        }
        _ => problem,
    }
}

/// What would help a frame that is too large or too small.
pub fn advised(refusal: Refusal, frame: Option<&Opened>) -> Problem {
    let advice = match (refusal, frame) {
        (Refusal::TooManyPixels, Some(frame)) => undoubled(frame),
        (Refusal::FrameTooSmall, Some(frame)) => Some(least(frame)),
        _ => None,
    };
    match advice {
        Some(advice) => Problem::Advised(refusal, advice),
        None => Problem::Refused(refusal),
    }
}

/// A frame that is too large doubled may do as it is.
fn undoubled(frame: &Opened) -> Option<String> {
    let fits = frame.image.pixels.len() <= limits::WORKING;
    fits.then(|| "--image-upsample 1 would do".to_string())
}

/// What a frame has and needs, in the pixels that a camera is set in.
fn least(frame: &Opened) -> String {
    let Image { width, height, .. } = frame.image;
    let side = frame.settings.least_side();
    format!(
        "it has {width} by {height} pixels, and with these settings each side needs {side} or more"
    )
}
