//! The command, run.

use std::fs;
use std::path::{Path, PathBuf};
use std::process::Command;

use judge::{document_frame, make};

/// An empty folder for one test.
fn folder(name: &str) -> PathBuf {
    let folder = Path::new(env!("CARGO_TARGET_TMPDIR")).join(name);
    let _ = fs::remove_dir_all(&folder);
    fs::create_dir_all(&folder).unwrap();
    folder
}

fn run(folder: &Path, words: &[&str]) -> (String, i32) {
    let mut command = Command::new(env!("CARGO_BIN_EXE_truth"));
    let output = command.current_dir(folder).args(words).output().unwrap();
    let text = String::from_utf8(output.stdout).unwrap();
    (text, output.status.code().unwrap())
}

fn lines<'a>(text: &'a str, start: &str) -> Vec<&'a str> {
    text.lines()
        .filter(|line| line.starts_with(start))
        .collect()
}

#[test]
fn made_frames() {
    let folder = folder("made");
    let (text, status) = run(
        &folder,
        &["--seed", "31", "--count", "300", "--first", "100"],
    );
    assert_eq!(status, 0, "{text}");
    let frames: u64 = text.split(' ').next().unwrap().parse().unwrap();
    let refused = text.split(", ").nth(1).unwrap().split(' ').next().unwrap();
    assert_eq!(frames + refused.parse::<u64>().unwrap(), 300);
    assert!(frames > 250, "{text}");
    // Without a blur all is exact; with one it is not, and the frame is one of those.
    assert!(lines(&text, "blur 0: ")[0].ends_with(" 0 past the bound; worst share 0"));
    for start in ["blur 1: ", "blur 2: ", "blur 3: "] {
        let line = lines(&text, start)[0];
        let (_, worst) = line.split_once("; worst share 0.").unwrap();
        let (_, index) = worst.split_once(": seed 31, index ").unwrap();
        let index: u64 = index.split(',').next().unwrap().parse().unwrap();
        assert!((100..400).contains(&index), "{line}");
        assert!(line.contains(" 0 past the bound"), "{line}");
    }
    let by_roundings = lines(&text, "  worst shares by number of roundings: ");
    assert_eq!(by_roundings.len(), 3);
    assert!(by_roundings
        .iter()
        .all(|line| line.contains("; mean share 0.0")));
    let (one, status) = run(
        &folder,
        &["--seed", "31", "--count", "20", "--blur-radius", "2"],
    );
    assert_eq!((status, lines(&one, "blur ").len()), (0, 1));
    assert_eq!(lines(&one, "blur 2: ").len(), 1);
}

#[test]
fn pictures_and_frames() {
    let folder = folder("pictures");
    let document = document_frame();
    let picture = [b"P5 7 7 255\n".as_slice(), &document.pixels].concat();
    fs::create_dir_all(folder.join("in/below")).unwrap();
    fs::write(folder.join("in/below/a.pgm"), &picture).unwrap();
    fs::write(folder.join("in/b.frame"), document.bytes()).unwrap();
    let words = [
        "--ray-radius",
        "1",
        "--image-upsample",
        "1",
        "--blur-radius",
        "3",
        "in",
    ];
    let (text, status) = run(&folder, &words);
    assert_eq!(status, 0, "{text}");
    // A frame file has its own settings, which are the same here.
    let line = |name: &str| {
        lines(&text, name)[0]
            .strip_prefix(name)
            .unwrap()
            .to_string()
    };
    assert_eq!(line("in/b.frame"), line("in/below/a.pgm"));
    assert!(line("in/b.frame").starts_with(": worst share 0."));
    assert!(text.contains("2 frames looked at, 0 refused and passed over, 0 could not be read"));
    assert!(text.contains("blur 3: 98 pixels, 98 of them with E above 0, 0 past the bound; "));
    let (text, status) = run(&folder, &["in/below/a.pgm"]);
    assert_eq!((status, lines(&text, "blur ").len()), (0, 4), "{text}");
    // What cannot be read is told, beside what can.
    fs::write(folder.join("in/c.pgm"), &picture[..30]).unwrap();
    let (text, status) = run(&folder, &["in"]);
    assert_eq!(
        (
            status,
            lines(&text, "in/c.pgm: NOT LOOKED AT: cut off").len()
        ),
        (1, 1),
        "{text}"
    );
    assert!(text.contains("2 frames looked at, 0 refused and passed over, 1 could not be read"));
    let (text, status) = run(&folder, &["--ray-radius", "8", "in/below"]);
    assert_eq!(status, 1);
    assert!(text.contains("NOT LOOKED AT: refused 5"), "{text}");
}

#[test]
fn the_search_is_the_same_again() {
    let folder = folder("search");
    let words = ["--search", "--seed", "3", "--steps", "20000", "--keep"];
    let search = |seed: &str, keep: &str| {
        let mut words = words.map(str::to_string).to_vec();
        words[2] = seed.to_string();
        words.push(keep.to_string());
        let words: Vec<&str> = words.iter().map(String::as_str).collect();
        let (text, status) = run(&folder, &words);
        assert_eq!(status, 0, "{text}");
        text
    };
    let (first, again, other) = (search("3", "a"), search("3", "b"), search("4", "c"));
    // Frames of another search are not mixed with these.
    let mut mixed = words.to_vec();
    mixed.push("a");
    assert_eq!(run(&folder, &mixed), (String::new(), 2));
    assert_eq!(first, again);
    assert_ne!(first, other);
    assert_eq!(lines(&first, "blur ").len(), 3);
    // What is kept has what was told, by the radii of its name.
    for blur in ["1", "2", "3"] {
        let told = lines(&first, &format!("blur {blur}: "))[0];
        let (_, told) = told.split_once("worst share ").unwrap();
        let (share, pixel) = (
            told.split(':').next().unwrap(),
            told.split_once("pixel ").unwrap().1,
        );
        let name = fs::read_dir(folder.join("a")).unwrap();
        let mut names = name.map(|entry| entry.unwrap().file_name().into_string().unwrap());
        let name = names
            .find(|name| name.starts_with(&format!("blur{blur}-ray")))
            .unwrap();
        let ray = &name["blur1-ray".len()..][..1];
        let file = format!("a/{name}");
        let words = [
            "--image-upsample",
            "1",
            "--ray-radius",
            ray,
            "--blur-radius",
            blur,
            &file,
        ];
        let (text, _) = run(&folder, &words);
        let line = format!("{file}: worst share {share} at blur {blur}, pixel {pixel}\n");
        assert!(text.starts_with(&line), "{text}{line}");
    }
}

#[test]
fn words_and_nothing() {
    let folder = folder("words");
    fs::write(folder.join("1.frame"), make(1, 1)).unwrap();
    for words in [
        &["--seed", "1"] as &[&str],
        &["--search", "--seed", "1"],
        &["--search", "--steps", "5", "--seed", "1", "1.frame"],
        &["--seed", "1", "--count", "5", "1.frame"],
        &["--blur-radius", "4", "1.frame"],
        &["--threshold-rel", "0", "1.frame"],
        &["--steps", "5", "1.frame"],
        &["--stripes", "1.frame"],
        &["--keep", "a", "--seed", "1", "--count", "5"],
        &[
            "--search",
            "--seed",
            "1",
            "--steps",
            "5",
            "--ray-radius",
            "8",
        ],
        &[
            "--search",
            "--seed",
            "1",
            "--steps",
            "5",
            "--ray-radius",
            "7",
            "--stripes",
        ],
        &[],
    ] {
        assert_eq!(run(&folder, words), (String::new(), 2), "{words:?}");
    }
    assert_eq!(run(&folder, &["--seed", "1", "--count", "0"]).1, 1);
    assert_eq!(
        run(&folder, &["--search", "--seed", "1", "--steps", "0"]).1,
        1
    );
    assert_eq!(run(&folder, &["none"]).1, 1);
    assert_eq!(run(&folder, &["1.frame"]).1, 0);
    assert!(run(&folder, &["--help"]).0.starts_with("truth holds"));
}
