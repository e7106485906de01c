//! `steyrbunk`: the fitters' command.

mod cameras;
mod digest;
mod draw;
mod font;
mod frame_file;
mod gather;
mod json;
mod marks;
mod options;
mod output;
mod png;
mod record;
mod site;
mod source;
mod why;
mod work;

use std::collections::BTreeSet;
use std::env;
use std::io::ErrorKind;
use std::path::{Path, PathBuf};
use std::process::ExitCode;
use std::time::{Duration, SystemTime};

use console::{no_terminal, put, say, shown, Progress, Usage};
use gather::{Frame, Group};
use options::{Call, Options, Place};
use output::Format;
use record::{End, Record};
use site::{path_of, Site};
use source::Source;
use steyrbunk::Settings;
use work::{Done, Planned};

/// One call over all its frames.
struct Run<'a> {
    options: &'a Options,
    started: SystemTime,
    progress: Progress,
    /// Whether each list on standard output gets its file's name in front.
    several: bool,
    frames: u64,
    /// Frames without a list.
    failed: u64,
    /// What else went wrong.
    problems: u64,
    /// Whether it was said that frame files have their own settings.
    noted: bool,
}

impl Run<'_> {
    /// Something that a person should read.
    fn tell(&mut self, text: &str) {
        self.progress.clear();
        eprintln!("{text}");
    }

    fn fail(&mut self, text: &str) {
        self.problems += 1;
        self.tell(text);
    }

    /// Notes, text and progress of a frame.
    fn hear(&mut self, frame: &Frame, done: &Done, written: bool) {
        self.frames += 1;
        for note in &done.notes {
            let once = note.starts_with("note: ");
            if !once || !self.noted {
                self.tell(&format!("{}: {note}", frame.told()));
            }
            self.noted |= once;
        }
        self.failed += u64::from(!matches!(done.record.end, End::Found { .. }));
        if !written {
            if self.several && self.options.format == Format::List {
                say(&format!("# {}\n", frame.told()));
            }
            put(&done.text);
        }
        if self.several && !self.options.quiet {
            let note = format!(", {} without a list", self.failed);
            self.progress.show(self.frames, &note);
        }
    }

    /// Lists to standard output.
    fn print(&mut self, group: &Group) {
        let planned: Vec<Planned> = group
            .frames
            .iter()
            .map(|frame| Planned {
                frame,
                results: Ok(Vec::new()),
            })
            .collect();
        say(&self.options.head());
        let mut frames = group.frames.iter();
        work::work(self.options, None, &planned, |done| {
            let frame = frames.next().expect("a frame for each that is told of");
            self.hear(frame, &done, false);
        });
    }

    /// Lists into a folder: plan, results, manifest.
    fn write(&mut self, group: &Group, site: &Site) -> std::io::Result<()> {
        let planned: Vec<Planned> = group
            .frames
            .iter()
            .map(|frame| Planned {
                frame,
                results: self.results(frame, site),
            })
            .collect();
        let rows: Vec<(Vec<u8>, Vec<u8>, &[PathBuf])> = planned
            .iter()
            .map(|planned| {
                let name = planned.frame.name.as_os_str().as_encoded_bytes().to_vec();
                let files = planned.results.as_deref().unwrap_or_default();
                (name, planned.frame.whole_path(), files)
            })
            .collect();
        let rows = rows
            .iter()
            .map(|(name, path, files)| (&name[..], &path[..], *files));
        site.plan(&record::plan(rows, &site.aside()))?;
        let mut records = self.gone(group, site);
        let mut frames = group.frames.iter();
        work::work(self.options, Some(site), &planned, |done| {
            let frame = frames.next().expect("a frame for each that is told of");
            self.hear(frame, &done, true);
            records.push(done.record);
        });
        self.finish(group, site, records)
    }

    /// The results that a frame is to have, or what stands in their way.
    fn results(&self, frame: &Frame, site: &Site) -> Result<Vec<PathBuf>, String> {
        let results = frame.results(&self.options.endings());
        match results.iter().find(|result| site.is_taken(result)) {
            Some(result) => Err(format!(
                "{} is there and not of an earlier run: it stays, and there is no new list",
                shown(result)
            )),
            None => Ok(results),
        }
    }

    /// Frames of the run before that were in a folder of this call and are there no more, or cannot be got at.
    fn gone(&mut self, group: &Group, site: &Site) -> Vec<Record> {
        let mut records = Vec::new();
        for earlier in &site.before {
            let path = path_of(&earlier.path);
            if !group.named.iter().any(|folder| path.starts_with(folder)) {
                continue;
            }
            let (end, words) = match std::fs::symlink_metadata(&path) {
                Ok(_) => continue,
                Err(error) if error.kind() == ErrorKind::NotFound => {
                    (End::Gone, record::GONE.to_string())
                }
                Err(error) => (End::Problem(error.to_string().into()), error.to_string()),
            };
            self.frames += 1;
            self.failed += 1;
            self.tell(&format!("{}: {words}", shown(&path)));
            records.push(Record {
                name: earlier.name.clone(),
                path: earlier.path.clone(),
                camera: None,
                read: None,
                end,
                verdicts: self.options.source.unsearched(),
                why: None,
                results: Vec::new(),
                time: Duration::ZERO,
            });
        }
        records
    }

    /// Gives the results their names, and writes the manifest last.
    fn finish(
        &mut self,
        group: &Group,
        site: &Site,
        mut records: Vec<Record>,
    ) -> std::io::Result<()> {
        for record in &mut records {
            let named = record
                .results
                .iter()
                .try_for_each(|result| site.name(result));
            if let Err(error) = named {
                record
                    .results
                    .iter()
                    .for_each(|result| site.unwrite(result));
                record.results.clear();
                self.failed += 1;
                self.tell(&error.to_string());
                record.end = End::Problem(error.into());
            }
        }
        records.sort_by(|a, b| (a.camera, &a.name).cmp(&(b.camera, &b.name)));
        let results: Vec<PathBuf> = records
            .iter()
            .flat_map(|record| record.results.clone())
            .collect();
        let Options {
            source,
            named,
            replace,
            ..
        } = self.options;
        // A record does not know with which settings its frame was searched; frames end to end have their own.
        let settings = match source {
            Source::Frames | Source::Arch(None) => Some(named.over(Settings::default())),
            Source::Records | Source::Arch(Some(_)) => None,
        };
        let (problems, records) = (&group.problems, records.iter().collect::<Vec<_>>());
        let text = record::manifest(self.started, settings, *replace, problems, &records);
        site.finish(&text, &results)
    }
}

fn list(options: &Options) -> Result<ExitCode, Usage> {
    let started = SystemTime::now();
    if let Some(Place::Folder(folder)) = &options.place {
        gather::make(folder).or_else(|error| Usage::wrong(error.to_string()))?;
    }
    let groups = gather::gather(options)?;
    let total = groups.iter().map(|group| group.frames.len() as u64).sum();
    if options.format == Format::Record && options.place.is_none() {
        alone(total)?;
    }
    let mut run = Run {
        options,
        started,
        progress: Progress::new(Some(total), options.source.things()),
        several: total > 1 || options.source.is_arch(),
        frames: 0,
        failed: 0,
        problems: 0,
        noted: false,
    };
    // The runs before are taken away everywhere before any frame is read. A folder that cannot be had stops none of the others.
    let (mut taken, sources) = (Vec::new(), sources(options.source, &groups));
    for group in &groups {
        match group
            .folder
            .as_deref()
            .map(|folder| Site::take(folder, &group.below, &sources))
        {
            Some(Err(error)) => run.fail(&error.to_string()),
            Some(Ok(site)) => taken.push((group, Some(site))),
            None => taken.push((group, None)),
        }
    }
    for (group, site) in &taken {
        group.problems.iter().for_each(|problem| run.fail(problem));
        match site {
            None => run.print(group),
            Some(site) => {
                if let Err(error) = run.write(group, site) {
                    run.fail(&format!(
                        "{error}; there is no run.json, and no list counts"
                    ));
                }
            }
        }
    }
    run.progress.clear();
    if run.several && !options.quiet {
        let things = options.source.things();
        eprintln!("{} {things}, {} without a list", run.frames, run.failed);
    }
    Ok(ExitCode::from(u8::from(run.failed + run.problems > 0)))
}

/// Records are no text, and nothing tells where one of them ends.
fn alone(total: u64) -> Result<(), Usage> {
    if total > 1 {
        return Usage::wrong("several records do not go to standard output: try --out or --beside");
    }
    no_terminal("a record", "dawn.record")
}

/// The files of a call that may be results of an earlier run: records, and never frames.
fn sources(source: Source, groups: &[Group]) -> BTreeSet<PathBuf> {
    match source {
        Source::Frames | Source::Arch(_) => BTreeSet::new(),
        Source::Records => groups.iter().flat_map(Group::sources).collect(),
    }
}

fn main() -> ExitCode {
    let name = env::args().next().unwrap_or_default();
    let name = Path::new(&name)
        .file_name()
        .map_or("steyrbunk".into(), |name| {
            name.to_string_lossy().into_owned()
        });
    console::run(&name, &options::help(), |words| {
        match options::call(words)? {
            Call::List(options) => list(&options),
            Call::Frame(call) => frame_file::write(&call),
            Call::Version => {
                say(&format!("steyrbunk {}\n", env!("CARGO_PKG_VERSION")));
                Ok(ExitCode::SUCCESS)
            }
        }
    })
}
