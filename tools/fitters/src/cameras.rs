//! All cameras of an arch, answered by one call of the library.

use std::iter;
use std::time::Instant;

use frames::Problem;
use steyrbunk::frame::{Frame, LEAD};
use steyrbunk::{arch, Found, Refusal};

use crate::record::Read;
use crate::work::{advised, directed, Done, Planned, Worker};

/// Holds the place of a file that is no whole frame file, which would shift the frames behind it: it states that no byte follows.
const STAND_IN: [u8; LEAD] = [0; LEAD];

/// The frame files of an arch end to end, and what stands against each camera already.
struct Laid {
    frames: Vec<u8>,
    problems: Vec<Option<Problem>>,
}

/// The frame of each camera, where it can be taken apart: what it is drawn from and told of with. The answers are the library's.
fn taken_apart(frames: &[u8]) -> impl Iterator<Item = Option<Frame<'_>>> {
    let files = arch::whole(frames).map(|file| Frame::parse(file).ok());
    files.chain(iter::repeat(None))
}

/// Advice for one file that was named as a camera's.
fn lone(together: Option<usize>, planned: &[Planned]) -> Option<Problem> {
    let advice = "frame files end to end in one file go with --cameras";
    let is_lone = together.is_none() && planned.len() == 1;
    is_lone.then(|| Problem::Advised(Refusal::Cameras, advice.to_string()))
}

impl Worker<'_> {
    /// All cameras at once, each with a file of its own or so many together in one.
    pub fn arch(&mut self, together: Option<usize>, planned: &[Planned]) -> Vec<Done> {
        let started = Instant::now();
        let begun = planned
            .iter()
            .map(|planned| Done::new(planned.frame, self.options.source));
        let mut all: Vec<Done> = begun.collect();
        let laid = self.laid(together, planned, &mut all);
        let cameras = together.unwrap_or(planned.len());
        let answers = self.finder.arch(cameras, &laid.frames);
        let answers = answers.unwrap_or_else(|refusal| vec![Err(refusal); planned.len()]);
        let told = laid.problems.into_iter().zip(answers);
        let frames = taken_apart(&laid.frames);
        for (((planned, done), frame), (problem, answer)) in
            planned.iter().zip(&mut all).zip(frames).zip(told)
        {
            let outcome = match problem {
                Some(problem) => Err(problem),
                None => self.camera(planned, frame, answer, done),
            };
            self.end(planned.frame, outcome, done);
            done.record.time = started.elapsed();
        }
        all
    }

    fn laid(&self, together: Option<usize>, planned: &[Planned], all: &mut [Done]) -> Laid {
        let cameras = together.unwrap_or(planned.len());
        match together {
            // The library refuses these before it reads any frame, however many files are named.
            _ if !(arch::FEWEST..=arch::MOST).contains(&cameras) => Laid {
                frames: Vec::new(),
                problems: vec![lone(together, planned); planned.len()],
            },
            None => self.by_name(planned, all),
            Some(_) => self.together(planned, all),
        }
    }

    fn by_name(&self, planned: &[Planned], all: &mut [Done]) -> Laid {
        let files = planned.iter().zip(all).map(|(planned, done)| {
            let file = self.frame_file(planned, done);
            file.map_or_else(
                |problem| (STAND_IN.to_vec(), Some(problem)),
                |file| (file, None),
            )
        });
        let (files, problems): (Vec<_>, Vec<_>) = files.unzip();
        Laid {
            frames: arch::join(&files),
            problems,
        }
    }

    /// The frame file of a camera, or why the file alone would have no list.
    fn frame_file(&self, planned: &Planned, done: &mut Done) -> Result<Vec<u8>, Problem> {
        planned.results()?;
        let file = self.read(planned.frame, done)?;
        let frame = self.opened(planned.frame, &file, done)?;
        frames::file(&frame)
    }

    /// One file, as it stands; each frame in it has its own settings.
    fn together(&self, planned: &[Planned], all: &mut [Done]) -> Laid {
        let file = self.read(planned[0].frame, &mut all[0]);
        let (read, problem) = (all[0].record.read.clone(), file.as_ref().err().cloned());
        let frames = file.unwrap_or_default();
        for (done, frame) in all.iter_mut().zip(taken_apart(&frames)) {
            done.record.read = read.clone().map(|read| Read {
                settings: frame.map(|frame| frame.settings),
                ..read
            });
        }
        Laid {
            frames,
            problems: vec![problem; planned.len()],
        }
    }

    /// What the library answered, handed on.
    fn camera(
        &mut self,
        planned: &Planned,
        frame: Option<Frame>,
        answer: Result<Found, Refusal>,
        done: &mut Done,
    ) -> Result<Found, Problem> {
        let advised = |refusal| advised(refusal, frame.as_ref());
        let found = answer.map_err(|refusal| directed(advised(refusal), planned.frame.spoken()))?;
        if let Some(frame) = frame.filter(|_| self.options.are_marks_drawn()) {
            self.again(&frame, &found)?;
        }
        self.hand_on(planned, found, frame, done)
    }

    /// The camera's frame by itself, for its map: the buffers of an arch are the last camera's. Both calls must have found the same.
    fn again(&mut self, frame: &Frame, found: &Found) -> Result<(), Problem> {
        let single = self.finder.find(frame.image, &frame.settings)?;
        match single == *found {
            true => Ok(()),
            false => Err("a single call with this frame finds other corners or verdicts than the arch, and nothing is drawn"
                .to_string()
                .into()),
        }
    }
}
