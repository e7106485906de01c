//! The comparison, run over made frames, files and archives.

use std::fs;
use std::path::{Path, PathBuf};
use std::process::{Command, Output};

use judge::{accepted, damaged, document_frame, made_arch, make};
use judge::{Detector, Frame, Room, Sizes, TOO_SMALL};

/// An empty folder for one test.
fn folder(name: &str) -> PathBuf {
    let folder = Path::new(env!("CARGO_TARGET_TMPDIR")).join(name);
    let _ = fs::remove_dir_all(&folder);
    fs::create_dir_all(&folder).unwrap();
    folder
}

fn run(folder: &Path, words: &[&str]) -> (String, i32) {
    let mut command = Command::new(env!("CARGO_BIN_EXE_compare"));
    let output: Output = command.current_dir(folder).args(words).output().unwrap();
    let text = String::from_utf8(output.stdout).unwrap();
    (text, output.status.code().unwrap())
}

#[test]
fn made_frames() {
    let folder = folder("made");
    let (text, status) = run(
        &folder,
        &["--seed", "31", "--count", "400", "--first", "100"],
    );
    assert_eq!(status, 0, "{text}");
    assert!(text.contains("400 frames: 400 agreed, 0 differ, 0 could not be read"));
    assert_eq!(told_six(&text), six((100..500).map(|at| make(31, at))));
    assert_eq!(told_small(&text), small((100..500).map(|at| make(31, at))));
    // What `tools/lean` reads: the last line, with coordinates, mean distance, mean lean and the greatest.
    let all: Vec<&str> = text.lines().last().unwrap().split_whitespace().collect();
    let numbers = all[1..].iter().map(|word| word.parse::<f64>());
    assert!(all[0] == "all" && numbers.filter_map(Result::ok).count() == 4);
    let (text, status) = run(
        &folder,
        &[
            "--seed",
            "31",
            "--count",
            "3",
            "--max-side",
            "200",
            "--each",
        ],
    );
    assert_eq!(status, 0, "{text}");
    assert!(text.contains("seed 31, index 2: agreed"));
}

/// How many of these are too small for a list by the documents; some are.
fn small(files: impl Iterator<Item = Vec<u8>>) -> usize {
    let is_small = |file: &Vec<u8>| accepted(file, Room::FREE) == Err(TOO_SMALL);
    let count = files.filter(is_small).count();
    assert!(count > 0);
    count
}

/// How many the report tells of.
fn told_small(text: &str) -> usize {
    let is_told = |line: &&str| line.ends_with(", refused 15; their maps were compared");
    let line = text.lines().find(is_told).expect("a line of its own");
    let count = line.strip_prefix("too small for a list: ").unwrap();
    count.split(',').next().unwrap().parse().unwrap()
}

/// The six that the judge counts over these, and that they bring each verdict.
fn six(files: impl Iterator<Item = Vec<u8>>) -> [u64; 6] {
    let (mut sums, mut detector) = ([0; 6], Detector::new());
    for file in files {
        let six = judge::reported(&mut detector, &file, Room::FREE);
        sums.iter_mut().zip(six).for_each(|(sum, n)| *sum += n);
    }
    assert!(sums.iter().all(|sum| *sum > 0), "{sums:?}");
    sums
}

/// The six of the report, and that they are all candidates.
fn told_six(text: &str) -> [u64; 6] {
    let lines = text.lines();
    let line = lines.filter_map(|line| line.strip_prefix("candidates: "));
    let (all, each) = line.last().unwrap().split_once("; ").unwrap();
    let names = judge::verdicts::NAMES.into_iter();
    let told = names.zip(each.split(", ")).map(|(name, words)| {
        let sum = words.strip_prefix(&format!("{name} ")).unwrap();
        sum.parse().unwrap()
    });
    let told: Vec<u64> = told.collect();
    assert_eq!(told.iter().sum::<u64>().to_string(), all);
    told.try_into().unwrap()
}

/// Document 01's frame cut to six by seven: its height is enough, its width is at twice the border.
fn cut() -> Frame {
    let document = document_frame();
    let pixels = (0..42).map(|at| document.pixels[at / 6 * 7 + at % 6]);
    Frame {
        width: 6,
        pixels: pixels.collect(),
        ..document
    }
}

/// Frames that are too small, from every source: no list, and their maps agree.
#[test]
fn small_frames() {
    let folder = folder("small");
    let agreed = ": agreed, refused 15, too small for a list: the maps were compared\n";
    let none = Frame {
        height: 0,
        pixels: Vec::new(),
        ..cut()
    };
    fs::create_dir_all(folder.join("frames")).unwrap();
    fs::write(folder.join("frames/a.frame"), cut().bytes()).unwrap();
    fs::write(folder.join("frames/b.frame"), none.bytes()).unwrap();
    fs::write(folder.join("frames/c.frame"), document_frame().bytes()).unwrap();
    let (text, status) = run(&folder, &["--lists", "frames"]);
    assert_eq!((status, told_small(&text)), (0, 2), "{text}");
    let lists = "the Rust:\nrefused 15\nours:\nrefused 15\n";
    for name in ["a", "b"] {
        let told = format!("frames/{name}.frame{agreed}{lists}");
        assert!(text.contains(&told), "{text}");
    }
    assert!(text.contains("the Rust: 1 with 1 corners, 2 refused by documents 01 and 02\n"));
    // The one candidate of document 01's frame; those that are refused have none.
    assert_eq!(told_six(&text), [0, 0, 0, 0, 0, 1]);
    assert!(text.contains("refused by number: 15: 2\n"));
    let archive = [cut().bytes(), document_frame().bytes(), none.bytes()].concat();
    fs::write(folder.join("archive"), archive).unwrap();
    let (text, status) = run(&folder, &["--archive", "archive"]);
    assert_eq!((status, told_small(&text)), (0, 2), "{text}");
    assert!(text.contains(&format!("archive, frame 2{agreed}")));
    let words = ["--seed", "9", "--count", "200", "--damaged"];
    let (text, status) = run(&folder, &words);
    let file = |at: u64| [make, damaged][at as usize % 2](9, at);
    assert_eq!(
        (status, told_small(&text)),
        (0, small((0..200).map(file))),
        "{text}"
    );
    let (text, status) = run(&folder, &["frames/c.frame"]);
    assert_eq!(status, 0);
    assert!(!text.contains("too small"), "{text}");
}

/// With a bound that no distance meets, each Gaussian place that is not equal is a difference: named, kept, counted.
#[test]
fn differences() {
    let folder = folder("differences");
    let words = [
        "--seed", "1", "--count", "300", "--bound", "-1", "--keep", "kept",
    ];
    let (text, status) = run(&folder, &words);
    assert_eq!(status, 1);
    let line = text
        .lines()
        .find(|line| line.contains("DIFFERS"))
        .expect("a place that is not equal");
    assert!(
        line.starts_with("seed 1, index ")
            && line.contains(": the Rust ")
            && line.contains(", ours ")
    );
    let index: u64 = line["seed 1, index ".len()..]
        .split(':')
        .next()
        .unwrap()
        .parse()
        .unwrap();
    let kept = fs::read(folder.join(format!("kept/1-{index:07}.frame"))).unwrap();
    assert_eq!(kept, make(1, index));
    let differ = text.matches("DIFFERS").count();
    assert!(text.contains(&format!("{differ} differ")));
    assert_eq!(fs::read_dir(folder.join("kept")).unwrap().count(), differ);
}

/// Arches, each camera a line; a difference names the arch and the camera, and the arch is kept.
#[test]
fn arches() {
    let folder = folder("arches");
    let (text, status) = run(
        &folder,
        &["--arch", "--seed", "33", "--count", "200", "--each"],
    );
    assert_eq!(status, 0, "{text}");
    assert!(text.contains("200 arches, each camera a frame:\n"));
    let cameras = text.matches(": agreed, ").count();
    assert!(
        cameras > 600 && text.contains(&format!("{cameras} frames: {cameras} agreed, 0 differ"))
    );
    for index in 0..200 {
        let last = made_arch(33, index, Sizes::PROGRAM).0 - 1;
        assert!(text.contains(&format!("seed 33, arch {index}, camera {last}: agreed")));
    }
    for number in [11, 13] {
        assert!(text.contains(&format!("agreed, refused {number}\n")));
    }
    let cameras = || (0..200).map(|index| made_arch(33, index, Sizes::PROGRAM));
    let whole = |(cameras, frames): (usize, Vec<u8>)| {
        let whole = judge::dues(cameras, &frames).into_iter().flatten();
        whole.map(<[u8]>::to_vec).collect::<Vec<_>>()
    };
    assert_eq!(told_small(&text), small(cameras().flat_map(whole)));
    assert_eq!(told_six(&text), six(cameras().flat_map(whole)));
    let words = [
        "--arch", "--seed", "1", "--count", "60", "--bound", "-1", "--keep", "kept",
    ];
    let (text, status) = run(&folder, &words);
    assert_eq!(status, 1);
    let line = text.lines().find(|line| line.contains("DIFFERS")).unwrap();
    let index = line.strip_prefix("seed 1, arch ").unwrap();
    let (index, camera) = index.split_once(", camera ").unwrap();
    assert!(camera.split_once(':').unwrap().0.parse::<usize>().unwrap() < 8);
    let index: u64 = index.parse().unwrap();
    let kept = fs::read(folder.join(format!("kept/1-{index:07}.arch"))).unwrap();
    assert_eq!(kept, made_arch(1, index, Sizes::PROGRAM).1);
}

#[test]
fn files_and_folders() {
    let folder = folder("files");
    fs::create_dir_all(folder.join("frames/2024")).unwrap();
    fs::write(folder.join("frames/2024/a.frame"), document_frame().bytes()).unwrap();
    fs::write(folder.join("frames/b.frame"), b"short").unwrap();
    let (text, status) = run(&folder, &["--lists", "frames"]);
    assert_eq!(status, 0, "{text}");
    let list = "7 7 1\n40400000 40400000 481C4000\n";
    assert!(text.starts_with(&format!(
        "frames/2024/a.frame: agreed, 1 corners\nthe Rust:\n{list}ours:\n{list}"
    )));
    assert!(text.contains("frames/b.frame: agreed, refused 11\n"));
    fs::create_dir_all(folder.join("empty")).unwrap();
    assert_eq!(run(&folder, &["empty"]).1, 1, "nothing to compare");
    let (text, status) = run(&folder, &["frames/b.frame", "missing.frame"]);
    assert_eq!(status, 1);
    assert!(text.contains("missing.frame: NOT COMPARED: "));
    assert!(text.contains("1 frames: 1 agreed, 0 differ, 1 could not be read"));
}

#[test]
fn archives() {
    let folder = folder("archives");
    let whole: Vec<u8> = (0..100).flat_map(|index| make(32, index)).collect();
    fs::write(folder.join("whole"), &whole).unwrap();
    fs::write(folder.join("cut"), &whole[..whole.len() - 1]).unwrap();
    let (text, status) = run(&folder, &["--archive", "whole", "cut"]);
    assert_eq!(status, 0, "{text}");
    assert!(text.contains("whole, frame 99: agreed"));
    assert!(text.contains("cut, frame 99: agreed, refused 13"));
    assert!(text.contains("200 frames: 200 agreed"));
    let hostile = [
        &document_frame().bytes()[..],
        &[1, 255, 255, 255, 255],
        &[0; 50],
    ]
    .concat();
    fs::write(folder.join("hostile"), hostile).unwrap();
    let (text, status) = run(&folder, &["--archive", "hostile"]);
    assert_eq!(status, 1);
    assert!(text.contains("hostile, frame 1: NOT COMPARED: states 4294967300 bytes"));
}

/// Pictures with the settings of the call, in folders of both kinds; what is no frame is never agreed.
#[test]
fn pictures() {
    let folder = folder("pictures");
    fs::create_dir_all(folder.join("both")).unwrap();
    let frame = document_frame();
    let pgm = [&b"P5 7 7 255\n"[..], &frame.pixels].concat();
    fs::write(folder.join("both/a.pgm"), &pgm).unwrap();
    fs::write(folder.join("both/b.frame"), frame.bytes()).unwrap();
    let settings = [
        "--ray-radius=1",
        "--image-upsample=1",
        "--response-blur-radius=0",
        "--peak-fit=parabolic",
        "--nms-radius=1",
    ];
    let (text, status) = run(&folder, &[&settings[..], &["both"]].concat());
    assert_eq!(status, 0, "{text}");
    assert!(text.contains("both/a.pgm: agreed, 1 corners\nboth/b.frame: agreed, 1 corners\n"));
    let (text, status) = run(&folder, &["both/a.pgm"]);
    assert_eq!(status, 0, "{text}");
    assert!(
        text.contains("both/a.pgm: agreed, refused 15, too small for a list"),
        "the defaults: {text}"
    );
    for (name, content) in [
        ("x.pgm", &b"P2 1 1 255 7"[..]),
        ("y.pgm", b"P5 9 9 255\n"),
        ("z", b"\x89PNG\r\n\x1a\n and more"),
        ("notes.txt", b"a list of what was measured at dawn"),
    ] {
        fs::write(folder.join(name), content).unwrap();
        let (text, status) = run(&folder, &[name]);
        assert_eq!(status, 1, "{name}: {text}");
        assert!(
            text.contains(&format!("{name}: NOT COMPARED: not a frame: ")),
            "{text}"
        );
        assert!(!text.contains(&format!("{name}: agreed")), "{text}");
    }
}

/// Pictures with the default settings, and by their name with the Rust's own: the two differ in which frames are too small.
#[test]
fn sets_of_settings() {
    let folder = folder("sets");
    let grey = |side: usize| {
        [
            format!("P5 {side} {side} 255\n").as_bytes(),
            &vec![100; side * side],
        ]
        .concat()
    };
    for side in [9, 10, 11, 12] {
        fs::write(folder.join(format!("{side}.pgm")), grey(side)).unwrap();
    }
    for (words, least) in [
        (&[][..], 12),
        (&["--settings", "default"], 12),
        (&["--settings", "existing-sites"], 10),
        (&["--settings=existing-sites", "--nms-radius=5"], 11),
    ] {
        let (text, status) = run(&folder, &[words, &["."]].concat());
        assert_eq!(status, 0, "{text}");
        for side in [9, 10, 11, 12] {
            let told = match side < least {
                true => "agreed, refused 15, too small for a list",
                false => "agreed, 0 corners",
            };
            assert!(
                text.contains(&format!("{side}.pgm: {told}")),
                "{words:?}: {text}"
            );
        }
    }
}

/// The program is held line by line: one that answers otherwise is seen, on sound and on damaged files.
#[cfg(unix)]
#[test]
fn the_program_itself() {
    use std::os::unix::fs::PermissionsExt;
    let folder = folder("program");
    let program = |name: &str, script: &str| {
        let path = folder.join(name);
        fs::write(&path, format!("#!/bin/sh\n{script}\n")).unwrap();
        fs::set_permissions(&path, fs::Permissions::from_mode(0o755)).unwrap();
        path.to_str().unwrap().to_string()
    };
    fs::write(folder.join("a.frame"), document_frame().bytes()).unwrap();
    let list = "7 7 1\\n40400000 40400000 481C4000\\n";
    let right = program("right", &format!("cat >/dev/null; printf '{list}'"));
    let (text, status) = run(&folder, &["--program", &right, "a.frame"]);
    assert_eq!(status, 0, "{text}");
    for (script, line) in [
        (
            format!("cat >/dev/null; printf '{list}'; echo list full"),
            "line 3",
        ),
        (
            format!("cat >/dev/null; printf '{list}' | head -c 20"),
            "line 2",
        ),
        ("echo refused 5".to_string(), "line 1"),
        ("exit 1".to_string(), "line 1"),
        (
            "cat >/dev/null; printf '7 7 1\\n40400000 40400001 481C4000\\n'".to_string(),
            "line 2",
        ),
    ] {
        let wrong = program("wrong", &script);
        let (text, status) = run(&folder, &["--program", &wrong, "a.frame"]);
        assert_eq!(status, 1, "{script}: {text}");
        assert!(
            text.contains(&format!("a.frame: DIFFERS: {line}: the Rust's would be")),
            "{text}"
        );
    }
    let (text, status) = run(&folder, &["--program", "/nowhere/corners", "a.frame"]);
    assert_eq!(status, 1, "{text}");
    // A frame that is too small is refused by the program, not searched.
    fs::write(folder.join("small.frame"), cut().bytes()).unwrap();
    for (script, expected) in [
        ("cat >/dev/null; echo refused 15", 0),
        ("cat >/dev/null; echo 6 7 0", 1),
        ("cat >/dev/null; echo refused 9", 1),
    ] {
        let program = program("small", script);
        let (text, status) = run(&folder, &["--program", &program, "small.frame"]);
        assert_eq!((status, told_small(&text)), (expected, 1), "{text}");
        let line = "line 1: the Rust's would be 'refused 15\\n', the program prints '";
        assert_eq!(text.contains(line), expected == 1, "{text}");
    }
    // Damaged files among made ones: this one refuses all that it is given, as none of the sound ones should be.
    let refuses = program("refuses", "cat >/dev/null; echo refused 13");
    let (text, status) = run(
        &folder,
        &[
            "--program",
            &refuses,
            "--seed",
            "5",
            "--count",
            "40",
            "--damaged",
        ],
    );
    assert_eq!(status, 1);
    assert!(
        text.contains("40 frames: ") && !text.contains(" 40 differ"),
        "{text}"
    );
}

#[test]
fn wrong_words() {
    let folder = folder("words");
    for words in [
        &[][..],
        &["--seed", "1"],
        &["--seed", "1", "--count", "1", "x"],
        &["--seed", "x"],
        &["--arch", "x"],
        &["--arch", "--seed", "1", "--count", "1", "--damaged"],
    ] {
        assert_eq!(run(&folder, words), (String::new(), 2), "{words:?}");
    }
    assert_eq!(run(&folder, &["--help"]).1, 0);
}
