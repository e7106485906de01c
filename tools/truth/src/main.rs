//! `truth`: how near the library's map comes to the whole numbers it stands for, over made frames, pictures or a search.

use std::fs;
use std::path::{Path, PathBuf};
use std::process::ExitCode;

use console::{say, shown, Progress, Usage, Word, Words, LONGEST};
use frames::Named;
use judge::{made, Sizes};
use steyrbunk::frame::Frame;
use steyrbunk::{limits, Finder};
use truth::{look, search, Among, Canvas, Looked, Summary};

const HELP: &str = "\
truth holds each pixel of the blurred map to the whole numbers that it stands for.

  truth --seed S --count N [--first I]     frames made from a seed, index I to I+N-1
  truth [OPTIONS] PATH...                  PGM pictures, frame files, folders of both
  truth --search --seed S --steps N        a search for frames that are far off

With v the map's value, E the sum of the unblurred responses in the pixel's window, cut at the map's
edges, and N the number of its pixels, |v N - E| 2^20 must be at most E; the share is the part of
that which is used, from 0 to 1. E is read from the working image in whole numbers, ray by ray, and
without a blur the map must be these numbers exactly. Maps are the library's, of its map entry.

  --blur-radius B      0 to 3; without it all four, and for a search 1 to 3
  --max-side M         made frames with sides up to M; without it they have the program's size
  --ray-radius R       for pictures, 1 to 7, default 4; a frame file has its own. For a search: these
                       rays alone
  --image-upsample U   for pictures, 1 or 2, default 2
  --steps N            strokes of the search for each blur radius: the same seed and number find the
                       same frame
  --stripes            the search keeps to frames that depend on x alone, but for the first column
                       beside the window
  --keep FOLDER        the search writes the worst frame of each blur radius there, as a PGM picture;
                       a folder that is new or empty, so that no frame of another search is in it

The summary has for each blur radius the pixels, those with E above 0, and the worst share with its
frame, pixel, the bits of v, N and E; and the worst by the number of roundings on the way to a pixel,
of which windows that are cut have fewer, with the mean of those with E above 0. What a search tells is the library's, of the worst frames
that were found for each number of roundings.

The status is 0 if all pixels are within the bound, 1 if one is not, which is told on standard error,
a file could not be read or there was nothing to look at, 2 if the words of the call are wrong.
";

enum Task {
    Made {
        seed: u64,
        first: u64,
        count: u64,
        sizes: Sizes,
    },
    Files(Vec<PathBuf>, Named),
    Search {
        among: Among,
        seed: u64,
        steps: u64,
        keep: Option<PathBuf>,
    },
}

/// What is to be done, and the blur radii that the call names.
fn task(mut words: Words) -> Result<(Task, Option<u32>), Usage> {
    let (mut seed, mut count, mut first, mut sizes) = (None, None, 0, Sizes::PROGRAM);
    let (mut searched, mut steps, mut keep, mut blur) = (false, None, None, None);
    let mut stripes = false;
    let (mut named, mut paths) = (Named::default(), Vec::new());
    while let Some(word) = words.word()? {
        let flag = match word {
            Word::Path(path) => {
                paths.push(path);
                continue;
            }
            Word::Flag(flag) => flag,
        };
        match flag.as_str() {
            "--seed" => seed = Some(words.value(&flag, "a number")?),
            "--count" => count = Some(words.value(&flag, "a number")?),
            "--first" => first = words.value(&flag, "a number")?,
            "--max-side" => sizes = Sizes::up_to(words.value(&flag, "a number of pixels")?),
            "--search" => searched = true,
            "--stripes" => stripes = true,
            "--steps" => steps = Some(words.value(&flag, "a number")?),
            "--keep" => keep = Some(words.path(&flag, "a folder")?),
            "--blur-radius" => match words.value(&flag, "a number")? {
                radius @ 0..=limits::BLUR => blur = Some(radius),
                radius => return Usage::wrong(format!("{flag} wants 0 to 3, not '{radius}'")),
            },
            "--ray-radius" | "--image-upsample" => drop(named.flag(&flag, &mut words)?),
            _ => return Usage::wrong(format!("{flag} is not known")),
        }
    }
    if !searched && (stripes || keep.is_some()) {
        return Usage::wrong("--stripes and --keep are for --search");
    }
    let task = match (seed, count, steps, paths.is_empty()) {
        (Some(seed), Some(count), None, true) if !searched => Task::Made {
            seed,
            first,
            count,
            sizes,
        },
        (Some(seed), None, Some(steps), true) if searched => Task::Search {
            among: among(stripes, &named)?,
            seed,
            steps,
            keep,
        },
        (None, None, None, false) if !searched => Task::Files(paths, named),
        _ => {
            return Usage::wrong(
                "either paths, or --seed and --count, or --search, --seed and --steps",
            )
        }
    };
    Ok((task, blur))
}

/// The frames of a search.
fn among(stripes: bool, named: &Named) -> Result<Among, Usage> {
    match (stripes, named.ray_radius) {
        (false, None) => Ok(Among::All),
        (true, None) => Ok(Among::Stripes),
        (false, Some(ray @ 1..=limits::RAY)) => Ok(Among::Ray(ray as usize)),
        _ => Usage::wrong("a search takes --stripes, or a --ray-radius from 1 to 7"),
    }
}

/// What was found of a frame goes into the summary; what may not be goes to standard error.
fn tell(summary: &mut Summary, progress: &mut Progress, name: &str, looked: &[Looked]) {
    summary.add(name, looked);
    for (blur, tally) in looked {
        if let Some(complaint) = tally.complaint() {
            progress.clear();
            eprintln!("{name}: blur {blur}: {complaint}");
        }
    }
}

fn made_frames(seed: u64, indexes: std::ops::Range<u64>, sizes: Sizes, blurs: &[u32]) -> Summary {
    let (mut summary, mut finder) = (Summary::default(), Finder::new());
    let mut progress = Progress::new(Some(indexes.end - indexes.start), "frames");
    for index in indexes.clone() {
        let file = made(seed, index, sizes).frame.bytes();
        let frame = Frame::parse(&file);
        let looked = frame.and_then(|frame| look(&mut finder, frame.image, &frame.settings, blurs));
        match looked {
            Ok(looked) => {
                let name = format!("seed {seed}, index {index}");
                tell(&mut summary, &mut progress, &name, &looked);
            }
            Err(_) => summary.refused += 1,
        }
        progress.show(index - indexes.start + 1, "");
    }
    progress.clear();
    summary
}

/// The files that are named, and those of named folders; what cannot be looked into is told.
fn listed(paths: &[PathBuf], summary: &mut Summary) -> Vec<PathBuf> {
    let mut files = Vec::new();
    for path in paths {
        if !path.is_dir() {
            files.push(path.clone());
            continue;
        }
        let inside = console::inside(path, &["frame", "pgm"]);
        files.extend(inside.files);
        for (path, error) in inside.unread {
            summary.unread += 1;
            say(&format!("{}: NOT LOOKED AT: {error}\n", shown(&path)));
        }
    }
    files
}

fn look_at_file(
    finder: &mut Finder,
    path: &Path,
    named: &Named,
    blurs: &[u32],
) -> Result<Vec<Looked>, String> {
    let file = console::read(path, LONGEST).map_err(|error| error.to_string())?;
    let file = file.ok_or_else(|| format!("over {LONGEST} bytes, longer than any frame"))?;
    let frame = frames::open(path, &file, named, false).map_err(|problem| problem.to_string())?;
    let looked = look(finder, frame.image, &frame.settings, blurs);
    looked.map_err(|refusal| refusal.to_string())
}

/// The worst share of a frame and where it is, in a line.
fn line(looked: &[Looked]) -> String {
    let worst = looked.iter().filter_map(|(blur, tally)| {
        let (share, pixel) = tally.worst?;
        Some((share, blur, pixel))
    });
    match worst.max_by_key(|(share, _, _)| *share) {
        Some((share, blur, pixel)) => format!("worst share {share} at blur {blur}, {pixel}"),
        None => "no pixel within the bound".to_string(),
    }
}

fn pictures(paths: &[PathBuf], named: &Named, blurs: &[u32]) -> Summary {
    let (mut summary, mut finder) = (Summary::default(), Finder::new());
    let files = listed(paths, &mut summary);
    let mut progress = Progress::new(Some(files.len() as u64), "frames");
    for (number, path) in files.iter().enumerate() {
        let (looked, name) = (look_at_file(&mut finder, path, named, blurs), shown(path));
        progress.clear();
        match looked {
            Ok(looked) => {
                tell(&mut summary, &mut progress, &name, &looked);
                say(&format!("{name}: {}\n", line(&looked)));
            }
            Err(problem) => {
                summary.unread += 1;
                say(&format!("{name}: NOT LOOKED AT: {problem}\n"));
            }
        }
        progress.show(number as u64 + 1, "");
    }
    progress.clear();
    summary
}

/// The frame that a search found, as a picture whose name says the radii to look at it with.
fn kept(folder: &Path, canvas: &Canvas) -> Result<(), Usage> {
    let shape = canvas.shape();
    let path = folder.join(format!("blur{}-ray{}.pgm", shape.blur, shape.ray));
    let mut file = format!("P5\n{} {}\n255\n", shape.width, shape.height).into_bytes();
    file.extend(canvas.pixels());
    let written = fs::write(&path, file);
    written.or_else(|error| Usage::wrong(format!("{}: {error}", shown(&path))))
}

/// A folder for the frames of one search, before the time is spent on it.
fn empty(folder: &Path) -> Result<(), Usage> {
    let opened = fs::create_dir_all(folder).and_then(|()| fs::read_dir(folder));
    match opened.map(|mut entries| entries.next().is_none()) {
        Ok(true) => Ok(()),
        Ok(false) => Usage::wrong(format!("{} is not empty", shown(folder))),
        Err(error) => Usage::wrong(format!("{}: {error}", shown(folder))),
    }
}

fn searched(
    among: Among,
    seed: u64,
    steps: u64,
    blurs: &[u32],
    keep: Option<&Path>,
) -> Result<Summary, Usage> {
    keep.map_or(Ok(()), empty)?;
    let (mut summary, mut finder) = (Summary::default(), Finder::new());
    for &blur in blurs {
        let mut progress = Progress::new(Some(steps), "strokes");
        let found = search(among, seed, blur as usize, steps, |done, share| {
            progress.show(done, &format!(", blur {blur}, {share:.4} by the model"));
        });
        progress.clear();
        for (number, frame) in found.iter().enumerate() {
            let (shape, canvas) = (frame.shape, Canvas::new(frame.shape, &frame.pixels));
            let name = format!("{} by {}, ray {}", shape.width, shape.height, shape.ray);
            match look(&mut finder, canvas.image(), &shape.settings(), &[blur]) {
                Ok(looked) => tell(&mut summary, &mut progress, &name, &looked),
                Err(_) => summary.refused += 1,
            }
            if let Some(folder) = keep.filter(|_| number == 0) {
                kept(folder, &canvas)?;
            }
        }
    }
    Ok(summary)
}

fn main() -> ExitCode {
    console::run("truth", HELP, |words| {
        let (task, blur) = task(words)?;
        let blurs = |first| blur.map_or((first..=limits::BLUR).collect(), |blur| vec![blur]);
        let summary = match task {
            Task::Made {
                seed,
                first,
                count,
                sizes,
            } => made_frames(seed, first..first.saturating_add(count), sizes, &blurs(0)),
            Task::Files(paths, named) => pictures(&paths, &named, &blurs(0)),
            Task::Search {
                among,
                seed,
                steps,
                keep,
            } => searched(among, seed, steps, &blurs(1), keep.as_deref())?,
        };
        say(&summary.to_string());
        Ok(ExitCode::from(u8::from(!summary.holds())))
    })
}
