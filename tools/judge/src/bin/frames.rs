//! Writes seeded frame files, into a folder or end to end into one archive.

use std::collections::BTreeMap;
use std::fs::{self, File};
use std::io::{self, BufWriter, Write};
use std::path::Path;
use std::{env, process};

use judge::{accepted, damaged, made, Detector, Kind, Room, Sizes, KINDS};

const HELP: &str = "\
frames --seed S --count N [--first I] [--max-side M] [--damaged] (OUTDIR | --archive FILE | --tell)
Writes the frame files of seed S, index I (0 if not given) to I+N-1; the same bytes for the same words.
  --max-side M  sides up to M; without it sizes are for the program's room
  --damaged     damaged files instead; not for an archive, which their lengths would not cut
  --archive     one file, frame files end to end, each stating its own length
  --tell        writes nothing; counts what the original finds by kind, and the program's answers
";

#[derive(Default)]
struct Options {
    seed: u64,
    first: u64,
    count: u64,
    side: Option<usize>,
    damaged: bool,
    tell: bool,
    archive: Option<String>,
    folder: Option<String>,
}

fn leave(text: &str, status: i32) -> ! {
    eprint!("{text}");
    process::exit(status)
}

fn number<T: std::str::FromStr>(words: &mut impl Iterator<Item = String>) -> T {
    let word = words.next().and_then(|word| word.parse().ok());
    word.unwrap_or_else(|| leave(HELP, 2))
}

fn options() -> Options {
    let mut options = Options::default();
    let mut words = env::args().skip(1);
    while let Some(word) = words.next() {
        match word.as_str() {
            "--seed" => options.seed = number(&mut words),
            "--first" => options.first = number(&mut words),
            "--count" => options.count = number(&mut words),
            "--max-side" => options.side = Some(number(&mut words)),
            "--damaged" => options.damaged = true,
            "--tell" => options.tell = true,
            "--archive" => options.archive = Some(number(&mut words)),
            "--help" => leave(HELP, 0),
            _ if word.starts_with("--") => leave(HELP, 2),
            _ => options.folder = Some(word),
        }
    }
    options
}

impl Options {
    fn indexes(&self) -> std::ops::Range<u64> {
        self.first..self.first + self.count
    }

    fn sizes(&self) -> Sizes {
        self.side.map_or(Sizes::PROGRAM, Sizes::up_to)
    }

    fn file(&self, index: u64) -> Vec<u8> {
        if self.damaged {
            damaged(self.seed, index)
        } else {
            made(self.seed, index, self.sizes()).frame.bytes()
        }
    }
}

fn into_folder(options: &Options, folder: &str) -> io::Result<()> {
    fs::create_dir_all(folder)?;
    for index in options.indexes() {
        let name = format!("{}-{index:07}.frame", options.seed);
        fs::write(Path::new(folder).join(name), options.file(index))?;
    }
    Ok(())
}

fn into_archive(options: &Options, archive: &str) -> io::Result<()> {
    let mut out = BufWriter::new(File::create(archive)?);
    for index in options.indexes() {
        out.write_all(&options.file(index))?;
    }
    out.flush()
}

/// Frames, accepted ones, those with corners, and corners.
type Tally = [u64; 4];

/// What the original finds in the made frames, whatever their size.
fn tell_kinds(options: &Options) {
    let mut tallies = [Tally::default(); KINDS.len()];
    let mut detector = Detector::new();
    for index in options.indexes() {
        let made = made(options.seed, index, options.sizes());
        let found = accepted(&made.frame.bytes(), Room::FREE)
            .map(|frame| detector.find(&frame).corners.len() as u64);
        let tally = &mut tallies[place(made.kind)];
        tally[0] += 1;
        tally[1] += u64::from(found.is_ok());
        tally[2] += u64::from(found.is_ok_and(|corners| corners > 0));
        tally[3] += found.unwrap_or(0);
    }
    println!("kind      frames  accepted  with corners  corners");
    for (kind, [a, b, c, d]) in KINDS.iter().zip(tallies) {
        println!("{:8} {a:7} {b:9} {c:13} {d:8}", format!("{kind:?}"));
    }
    let [a, b, c, d] = [0, 1, 2, 3].map(|k| tallies.iter().map(|tally| tally[k]).sum::<u64>());
    println!("{:8} {a:7} {b:9} {c:13} {d:8}", "all");
}

/// The program's answers: accepted, or the number.
fn tell_answers(options: &Options) {
    let mut answers = BTreeMap::new();
    for index in options.indexes() {
        let answer = accepted(&options.file(index), Room::PROGRAM).err();
        *answers.entry(answer).or_insert(0u64) += 1;
    }
    for (answer, count) in answers {
        let name = answer.map_or("accepted".to_string(), |number| format!("refused {number}"));
        println!("{name:11} {count:7}");
    }
}

fn tell(options: &Options) -> io::Result<()> {
    if !options.damaged {
        tell_kinds(options);
    }
    tell_answers(options);
    Ok(())
}

fn place(kind: Kind) -> usize {
    KINDS.iter().position(|each| *each == kind).unwrap_or(0)
}

fn main() {
    let options = options();
    let done = match (&options.archive, &options.folder) {
        _ if options.tell => tell(&options),
        (Some(archive), None) if !options.damaged => into_archive(&options, archive),
        (None, Some(folder)) => into_folder(&options, folder),
        _ => leave(HELP, 2),
    };
    if let Err(error) = done {
        leave(&format!("{error}\n"), 1);
    }
}
