//! `compare`: both programs over files, archives or made frames.

use std::fs;
use std::path::{Path, PathBuf};
use std::process::ExitCode;
use std::sync::{mpsc, Mutex};
use std::thread;

use compare::{Held, Job, Makes, Opened, Pair, Program, Source, Summary, BOUND};
use console::{say, Progress, Usage, Word, Words};
use frames::{settings_help, Named};
use judge::Sizes;

const HELP: &str = "\
compare runs the published Rust and the proved finder over the same frames.

  compare [OPTIONS] [SETTINGS] PATH...               PGM pictures, frame files, folders of both
  compare [OPTIONS] --archive FILE...                frame files end to end in each file
  compare [OPTIONS] --seed S --count N [--first I]   frames made from a seed, index I to I+N-1
  compare [OPTIONS] --arch --seed S --count N [--first I]   arches of 2 to 8 made frames

Answers, working image, tables, map, scratch and list must be equal to the bit. Only the places of
Gaussian corners may differ: by the bound divided by the peak's curvature (the second difference of
three logarithms) in working pixels, at most by one pixel, and by one step of an f32.
The six counts, why candidates were dropped and how many are kept, must be those of the judge's own
reading of the documents over the Rust's map, for the Rust counts none; six zeros with a refusal.
A frame that is too small to judge, 15, is taken by the Rust and must be refused by ours, with 15:
there is no list to compare, but the maps are, all buffers, by the functions that make a map alone.
Each camera of an arch must be told and given what a single call with its frame is, to the bit, and
that call is held against the Rust; a tenth of the frames are damaged, and some arches are cut, state
lengths past their end or have bytes behind them.

  --program PATH   runs the proved program `corners` too, which `rt run` in crates/corners leaves in
                   crates/corners/out/corners: what it prints must be the Rust's list as document 01
                   has it printed, or the refusal, 9 and 10 of its own room among them
  --damaged        every second made file is damaged
  --max-side M     made frames with sides up to M; without it they have the program's size
  --bound B        the bound for Gaussian places (default 4e-6)
  --lists          prints both lists of each frame
  --each           prints a line for each made frame; for files this is done anyway
  --keep FOLDER    writes each frame that differs, or its arch, into the folder
  --threads N      default 2

The status is 0 if nothing differs that may not, 1 if something does, a file could not be read or
there was nothing to compare, 2 if the words of the call are wrong. A file that is neither a picture
that is taken nor a frame file is not a frame, and could not be read.

SETTINGS
";

struct Options {
    bound: f64,
    lists: bool,
    each: bool,
    keep: Option<PathBuf>,
    program: Option<Program>,
    threads: usize,
    arch: bool,
    /// What could not be looked into.
    problems: Vec<String>,
}

fn options(mut words: Words) -> Result<(Options, Source), Usage> {
    let mut options = Options {
        bound: BOUND,
        lists: false,
        each: false,
        keep: None,
        program: None,
        threads: 2,
        arch: false,
        problems: Vec::new(),
    };
    let (mut seed, mut count, mut first, mut sizes) = (None, None, 0, Sizes::PROGRAM);
    let (mut archive, mut damaged, mut paths) = (false, false, Vec::new());
    let mut named = Named::default();
    while let Some(word) = words.word()? {
        let flag = match word {
            Word::Path(path) => {
                paths.push(path);
                continue;
            }
            Word::Flag(flag) => flag,
        };
        match flag.as_str() {
            "--seed" => seed = Some(words.value(&flag, "a number")?),
            "--count" => count = Some(words.value(&flag, "a number")?),
            "--first" => first = words.value(&flag, "a number")?,
            "--max-side" => sizes = Sizes::up_to(words.value(&flag, "a number of pixels")?),
            "--bound" => options.bound = words.value(&flag, "a number")?,
            "--lists" => options.lists = true,
            "--each" => options.each = true,
            "--keep" => options.keep = Some(words.path(&flag, "a folder")?),
            "--threads" => options.threads = words.value(&flag, "a number")?,
            "--archive" => archive = true,
            "--damaged" => damaged = true,
            "--arch" => options.arch = true,
            "--program" => {
                let path = words.path(&flag, "the program `corners`")?;
                options.program = Some(Program { path });
            }
            _ if named.flag(&flag, &mut words)? => {}
            _ => return Usage::wrong(format!("{flag} is not known")),
        }
    }
    let what = match (options.arch, damaged) {
        (false, false) => Makes::Frames,
        (false, true) => Makes::Damaged,
        (true, _) => Makes::Arches,
    };
    if options.arch && (damaged || options.program.is_some() || seed.is_none()) {
        return Usage::wrong("--arch is for made frames, and neither for --damaged nor --program");
    }
    let source = match (seed, count, paths.is_empty()) {
        (Some(seed), Some(count), true) if !archive => {
            Source::made(seed, first, count, sizes, what)
        }
        (None, None, false) if archive => Source::archives(&paths),
        (None, None, false) => {
            options.each = true;
            let (source, problems) = Source::files(&paths, named);
            options.problems = problems;
            source
        }
        _ => return Usage::wrong("either paths, or --seed and --count"),
    };
    options.each |= archive;
    Ok((options, source))
}

/// A frame that was held, or why it could not be read.
struct Line {
    name: String,
    held: Result<Held, String>,
    /// Whether it differs and could not be kept.
    lost: Option<String>,
}

impl Line {
    fn of(name: String, held: Result<Held, String>) -> Line {
        Line {
            name,
            held,
            lost: None,
        }
    }

    fn differs(&self) -> bool {
        self.held
            .as_ref()
            .is_ok_and(|held| !held.differences.is_empty())
    }
}

/// The frame of a job, or each camera of its arch.
fn hold(pair: &mut Pair, mut job: Job, keep: Option<&Path>) -> Vec<Line> {
    let name = job.name();
    let (bytes, mut lines) = match job.open() {
        Err(error) => return vec![Line::of(name, Err(error))],
        Ok(Opened::Frame(file)) => {
            let held = pair.hold(&file);
            (file, vec![Line::of(name, Ok(held))])
        }
        Ok(Opened::Arch(cameras, frames)) => {
            let held = pair.hold_arch(cameras, &frames).into_iter().enumerate();
            let line = |(i, held)| Line::of(format!("{name}, camera {i}"), Ok(held));
            let lines = held.map(line).collect();
            (frames, lines)
        }
    };
    let first = lines.iter_mut().find(|line| line.differs());
    if let Some((folder, line)) = keep.zip(first) {
        let path = folder.join(job.file_name());
        let written = fs::write(&path, bytes);
        line.lost = written
            .err()
            .map(|error| format!("{}: {error}", path.display()));
    }
    lines
}

/// Workers take shares of the frames; what they find is told in the frames' order.
fn run(options: &Options, source: Source) -> Summary {
    let things = if options.arch { "arches" } else { "frames" };
    let mut progress = Progress::new(source.total(), things);
    let source = Mutex::new((0u64, source));
    let (sender, receiver) = mpsc::sync_channel(64);
    let mut summary = Summary::default();
    thread::scope(|scope| {
        for _ in 0..options.threads.max(1) {
            let (sender, source) = (sender.clone(), &source);
            scope.spawn(move || {
                let mut pair = Pair::new(options.bound);
                pair.program = options.program.clone();
                loop {
                    let (number, jobs) = {
                        let mut source = source.lock().expect("no worker panics with it");
                        source.0 += 1;
                        (source.0, source.1.share())
                    };
                    if jobs.is_empty() {
                        break;
                    }
                    let keep = options.keep.as_deref();
                    let lines: Vec<Vec<Line>> = jobs
                        .into_iter()
                        .map(|job| hold(&mut pair, job, keep))
                        .collect();
                    if sender.send((number, lines)).is_err() {
                        break;
                    }
                }
            });
        }
        drop(sender);
        let mut waiting = std::collections::BTreeMap::new();
        let (mut next, mut done) = (1, 0);
        for (number, jobs) in receiver {
            waiting.insert(number, jobs);
            while let Some(jobs) = waiting.remove(&next) {
                next += 1;
                done += jobs.len() as u64;
                for line in jobs.iter().flatten() {
                    tell(options, line, &mut summary, &mut progress);
                }
                let note = format!(", {} differ", summary.differ);
                progress.show(done, &note);
            }
        }
        summary.arches = if options.arch { done } else { 0 };
    });
    progress.clear();
    let seconds = progress.seconds();
    let rate = summary.frames as f64 / seconds.max(1e-9);
    say(&format!(
        "{seconds:.1} seconds, {rate:.0} frames a second, {} threads\n",
        options.threads.max(1)
    ));
    summary
}

fn tell(options: &Options, line: &Line, summary: &mut Summary, progress: &mut Progress) {
    let name = &line.name;
    match &line.held {
        Err(error) => {
            summary.unread += 1;
            progress.clear();
            say(&format!("{name}: NOT COMPARED: {error}\n"));
        }
        Ok(held) => {
            summary.add(held);
            if options.each || options.lists || !held.differences.is_empty() {
                progress.clear();
                say(&format!("{name}: {held}\n"));
            }
            if options.lists {
                say(&held.lists());
            }
        }
    }
    if let Some(lost) = &line.lost {
        say(&format!("{lost}\n"));
    }
}

fn main() -> ExitCode {
    let help = HELP.replace("SETTINGS\n", &settings_help());
    console::run("compare", &help, |words| {
        let (options, source) = options(words)?;
        if let Some(folder) = &options.keep {
            fs::create_dir_all(folder)
                .or_else(|error| Usage::wrong(format!("{}: {error}", folder.display())))?;
        }
        let mut summary = run(&options, source);
        for problem in &options.problems {
            summary.unread += 1;
            say(&format!("{problem}\n"));
        }
        say(&summary.to_string());
        Ok(ExitCode::from(u8::from(!summary.agreed())))
    })
}
