//! Writes the three fixed lists that the repository's own programs replay.

use std::path::Path;
use std::{env, fs, process};

use judge::lists::{list_list, map_list, program_list, List, SEED};

const HELP: &str = "\
vectors [--seed S] OUTDIR
Writes map.bin, list.bin and program.bin and tells what is in them; same seed, same bytes.
";

fn leave(text: &str, status: i32) -> ! {
    eprint!("{text}");
    process::exit(status)
}

fn options() -> (u64, String) {
    let (mut seed, mut folder) = (SEED, None);
    let mut words = env::args().skip(1);
    while let Some(word) = words.next() {
        match word.as_str() {
            "--seed" => {
                let number = words.next().and_then(|word| word.parse().ok());
                seed = number.unwrap_or_else(|| leave(HELP, 2));
            }
            "--help" => leave(HELP, 0),
            _ if word.starts_with("--") => leave(HELP, 2),
            _ => folder = Some(word),
        }
    }
    (seed, folder.unwrap_or_else(|| leave(HELP, 2)))
}

/// One line for each trait: value and how many.
fn tell(name: &str, list: &List, bytes: usize) -> String {
    let mut text = format!("{name}: {} frames, {bytes} bytes", list.records.len());
    let mut last = "";
    for ((of, value), count) in &list.summary {
        if *of != last {
            text += &format!("\n  {of}:");
            last = of;
        }
        text += &format!(" [{}] {count}", value.trim());
    }
    text + "\n\n"
}

fn main() {
    let (seed, folder) = options();
    let lists = [
        ("map", map_list(seed)),
        ("list", list_list(seed)),
        ("program", program_list(seed)),
    ];
    if let Err(error) = fs::create_dir_all(&folder) {
        leave(&format!("{folder}: {error}\n"), 1);
    }
    let told = lists.map(|(name, list)| {
        let file = list.file(name, seed);
        let path = Path::new(&folder).join(format!("{name}.bin"));
        if let Err(error) = fs::write(&path, &file) {
            leave(&format!("{}: {error}\n", path.display()), 1);
        }
        tell(name, &list, file.len())
    });
    // Said once all files stand.
    print!("{}", told.concat());
}
