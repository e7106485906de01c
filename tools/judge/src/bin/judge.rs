//! Prints what the published Rust finds in frame files.

use std::fmt::{Display, Write as _};
use std::io::{self, Read, Write as _};
use std::{env, fs, process};

use judge::{accepted, list, printed, run, split, Outcome, Room};

const HELP: &str = "\
judge [--print | --all] [--program] [--archive] [FILE...]
Reads frame files, or one from standard input, and prints what the published Rust finds.
  --print    the list as document 01 prints it (the default), without the program's
             limits of room: answers 1, 9 and 10 are not given
  --all      W, H, working image, four tables, response, scratch, the six counts and list
  --program  with the program's limits of bytes, working pixels and corners
  --archive  each file holds frame files end to end
";

#[derive(Default)]
struct Options {
    all: bool,
    program: bool,
    archive: bool,
    files: Vec<String>,
}

fn options() -> Options {
    let mut options = Options::default();
    for word in env::args().skip(1) {
        match word.as_str() {
            "--all" => options.all = true,
            "--print" => options.all = false,
            "--program" => options.program = true,
            "--archive" => options.archive = true,
            "--help" => leave(HELP, 0),
            _ if word.starts_with("--") => leave(HELP, 2),
            _ => options.files.push(word),
        }
    }
    options
}

fn leave(text: &str, status: i32) -> ! {
    eprint!("{text}");
    process::exit(status)
}

fn read(name: &str) -> Vec<u8> {
    fs::read(name).unwrap_or_else(|error| leave(&format!("{name}: {error}\n"), 1))
}

fn standard_input() -> Vec<u8> {
    let mut bytes = Vec::new();
    match io::stdin().read_to_end(&mut bytes) {
        Ok(_) => bytes,
        Err(error) => leave(&format!("standard input: {error}\n"), 1),
    }
}

fn decimal(name: &str, numbers: &[impl Display]) -> String {
    numbers.iter().fold(name.to_string(), |line, number| {
        line + &format!(" {number}")
    })
}

fn bits(name: &str, numbers: &[f32]) -> String {
    numbers.iter().fold(name.to_string(), |line, number| {
        line + &format!(" {:08X}", number.to_bits())
    })
}

fn hex(name: &str, bytes: &[u8]) -> String {
    let start = format!("{name} ");
    bytes
        .iter()
        .fold(start, |line, byte| line + &format!("{byte:02X}"))
}

fn everything(outcome: &Outcome, room: usize) -> String {
    let Outcome {
        map,
        corners,
        verdicts,
    } = outcome;
    let scratch = map.scratch.as_ref();
    let lines = [
        format!("width {}", map.w),
        format!("height {}", map.h),
        hex("working", &map.working),
        decimal("row", &map.row),
        decimal("column", &map.col),
        decimal("falling", &map.diag_pos),
        decimal("rising", &map.diag_neg),
        bits("response", &map.response),
        scratch.map_or("scratch untouched".to_string(), |scratch| {
            bits("scratch", scratch)
        }),
        decimal("verdicts", verdicts),
    ];
    let mut text = lines.join("\n");
    let list = list(map.w, map.h, corners, room);
    write!(text, "\n{list}").expect("a string takes all");
    text
}

fn answer(file: &[u8], options: &Options) -> Vec<u8> {
    let room = if options.program {
        Room::PROGRAM
    } else {
        Room::FREE
    };
    match accepted(file, room) {
        Ok(frame) if options.all => everything(&run(&frame), room.corners).into_bytes(),
        _ => printed(file, room),
    }
}

fn main() {
    let options = options();
    let contents = match options.files.as_slice() {
        [] => vec![standard_input()],
        names => names.iter().map(|name| read(name)).collect(),
    };
    let mut out = io::stdout().lock();
    for content in &contents {
        let files = if options.archive {
            split(content)
        } else {
            vec![content.as_slice()]
        };
        for file in files {
            if out.write_all(&answer(file, &options)).is_err() {
                process::exit(1);
            }
        }
    }
}
