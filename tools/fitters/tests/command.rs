//! The command, run as a person runs it.

use std::collections::BTreeMap;
use std::fs;
use std::io::Write;
use std::path::{Path, PathBuf};
use std::process::{Command, Output, Stdio};

use judge::{document_frame, Frame, Kind, Room, Sizes};

const DOCUMENT: &str = "7 7 1\n40400000 40400000 481C4000\n";
/// The flags that give a picture the settings of document 01's frame.
const SETTINGS: [&str; 12] = [
    "--ray-radius",
    "1",
    "--image-upsample",
    "1",
    "--response-blur-radius",
    "0",
    "--peak-fit",
    "parabolic",
    "--nms-radius",
    "1",
    "--min-cluster-size",
    "2",
];
/// An empty folder for one test.
fn folder(name: &str) -> PathBuf {
    let folder = Path::new(env!("CARGO_TARGET_TMPDIR")).join(name);
    let _ = fs::remove_dir_all(&folder);
    fs::create_dir_all(&folder).unwrap();
    folder
}

/// Runs the command in a folder; whatever it meets, it must not panic.
fn run(folder: &Path, words: &[&str]) -> Output {
    let mut command = Command::new(env!("CARGO_BIN_EXE_steyrbunk"));
    let output = command.current_dir(folder).args(words).output().unwrap();
    let text = error(&output);
    assert!(!text.contains("panicked"), "{text}");
    assert!(
        output.status.code().is_some(),
        "{words:?} ended by a signal"
    );
    output
}

/// The same with bytes on standard input.
fn fed(folder: &Path, words: &[&str], input: &[u8]) -> Output {
    let mut command = Command::new(env!("CARGO_BIN_EXE_steyrbunk"));
    let command = command.current_dir(folder).args(words);
    let piped = command.stdin(Stdio::piped()).stdout(Stdio::piped());
    let mut child = piped.stderr(Stdio::piped()).spawn().unwrap();
    child.stdin.take().unwrap().write_all(input).unwrap();
    child.wait_with_output().unwrap()
}

fn out(output: &Output) -> String {
    String::from_utf8(output.stdout.clone()).unwrap()
}

fn error(output: &Output) -> String {
    String::from_utf8_lossy(&output.stderr).into_owned()
}

fn status(output: &Output) -> i32 {
    output.status.code().unwrap()
}

fn pgm(frame: &Frame) -> Vec<u8> {
    let head = format!("P5\n# a picture\n{} {}\n255\n", frame.width, frame.height);
    [head.as_bytes(), &frame.pixels].concat()
}

/// Document 01's frame with one setting that is refused, 5.
fn refused() -> Vec<u8> {
    Frame {
        ray: 8,
        ..document_frame()
    }
    .bytes()
}

/// Document 01's frame without its corner.
fn blank() -> Vec<u8> {
    Frame {
        pixels: vec![0; 49],
        ..document_frame()
    }
    .bytes()
}

/// The names in a folder that begin with a frame's, its own not among them.
fn results(folder: &Path, frame: &str) -> Vec<String> {
    let names = fs::read_dir(folder).unwrap();
    let names = names.map(|entry| entry.unwrap().file_name().into_string().unwrap());
    let mut names: Vec<String> = names
        .filter(|name| name.starts_with(frame) && name != frame)
        .collect();
    names.sort();
    names
}

#[test]
fn the_documents_frame() {
    let folder = folder("document");
    fs::write(folder.join("a.frame"), document_frame().bytes()).unwrap();
    fs::write(folder.join("a.pgm"), pgm(&document_frame())).unwrap();
    let output = run(&folder, &["a.frame"]);
    assert_eq!((out(&output).as_str(), status(&output)), (DOCUMENT, 0));
    assert_eq!(error(&output), "");
    let output = run(&folder, &[&SETTINGS[..], &["a.pgm"]].concat());
    assert_eq!((out(&output).as_str(), status(&output)), (DOCUMENT, 0));
    let output = run(&folder, &["--quiet", "a.frame", "a.frame"]);
    assert_eq!(
        out(&output),
        format!("# a.frame\n{DOCUMENT}# a.frame\n{DOCUMENT}")
    );
}

#[test]
fn settings_of_frame_files() {
    let folder = folder("settings");
    fs::write(folder.join("a.frame"), document_frame().bytes()).unwrap();
    let output = run(&folder, &["--ray-radius", "8", "a.frame"]);
    assert_eq!((out(&output).as_str(), status(&output)), (DOCUMENT, 0));
    assert!(error(&output).contains("--override"));
    let output = run(&folder, &["--override", "--ray-radius", "8", "a.frame"]);
    assert_eq!((out(&output).as_str(), status(&output)), ("refused 5\n", 1));
    assert!(error(&output).contains("a.frame: refused 5: the ray radius is over 7"));
}

/// A picture with the settings of a start, but for the suppression: the default is 6, the existing sites' is 4.
fn started(suppression: u8) -> Frame {
    Frame {
        ray: 4,
        upsampling: 2,
        blur: 1,
        mode: 0,
        suppression,
        least: 2,
        threshold: 0.28f32.to_bits(),
        ..judge::made(8, 3, Sizes::up_to(200)).frame
    }
}

/// The default settings, and the existing sites', by their name: those of the original's own record.
#[test]
fn sets_of_settings() {
    let folder = folder("sets");
    fs::write(folder.join("a.pgm"), pgm(&started(6))).unwrap();
    let [six, four] = [6, 4].map(|radius| judge::printed(&started(radius).bytes(), Room::FREE));
    assert_ne!(six, four, "a picture that tells them apart");
    let sites = "--settings=existing-sites";
    for (words, expected) in [
        (&[][..], &six),
        (&["--settings", "default"], &six),
        (&["--nms-radius", "4"], &four),
        (&[sites], &four),
        // What is named singly goes over a set, wherever it stands; of two sets the last one counts.
        (&[sites, "--nms-radius", "6"], &six),
        (&["--nms-radius", "6", sites], &six),
        (&["--settings", "default", sites], &four),
        (&[sites, "--settings", "default"], &six),
    ] {
        let words = [words, &["--peak-fit", "parabolic"]].concat();
        let output = run(&folder, &[&words[..], &["a.pgm"]].concat());
        assert_eq!(
            (&output.stdout, status(&output)),
            (expected, 0),
            "{words:?}"
        );
        let file = run(&folder, &[&["frame"], &words[..], &["a.pgm"]].concat()).stdout;
        let radius = if expected == &six { 6 } else { 4 };
        assert_eq!(file, started(radius).bytes(), "{words:?}");
    }
    // Cameras that are pictures are searched with the set too, and each list is that of its picture alone.
    for (set, list) in [("default", &six), ("existing-sites", &four)] {
        let words = ["arch", "--quiet", "--peak-fit=parabolic", "--settings", set];
        let output = run(&folder, &[&words[..], &["a.pgm", "a.pgm"]].concat());
        let list = String::from_utf8_lossy(list);
        let expected = format!("# camera 1: a.pgm\n{list}# camera 2: a.pgm\n{list}");
        assert_eq!((out(&output), status(&output)), (expected, 0), "{set}");
    }
    // The Gaussian fit is that of both; it moves places, not counts.
    let line = |text: &[u8]| {
        String::from_utf8_lossy(text)
            .lines()
            .next()
            .map(str::to_string)
    };
    assert_eq!(line(&run(&folder, &["a.pgm"]).stdout), line(&six));
    assert_eq!(line(&run(&folder, &[sites, "a.pgm"]).stdout), line(&four));
    // The manifest has the numbers, whatever they were named by.
    run(&folder, &[sites, "--out", "lists", "a.pgm"]);
    let manifest = fs::read_to_string(folder.join("lists/run.json")).unwrap();
    let settings = "\"settings\":{\"ray_radius\":4,\"image_upsample\":2,\"response_blur_radius\":1,\"peak_fit\":\"gaussian\",\"threshold_rel\":0.28,\"nms_radius\":4,\"min_cluster_size\":2},";
    assert!(manifest.contains(settings), "{manifest}");
    for words in [
        &["--settings", "sites", "a.pgm"][..],
        &["a.pgm", "--settings"],
    ] {
        let output = run(&folder, words);
        assert_eq!(
            (out(&output).as_str(), status(&output)),
            ("", 2),
            "{words:?}"
        );
    }
    assert!(error(&run(&folder, &["--settings=sites", "a.pgm"]))
        .contains("--settings wants default or existing-sites, not 'sites'"));
    let help = out(&run(&folder, &["--help"]));
    for told in [
        "0 to 32, default 6;",
        "each side needs 12 pixels or more",
        "--nms-radius 4, as the published Rust has it",
    ] {
        assert!(help.contains(told), "{told}: {help}");
    }
}

/// A frame file names its settings: no set changes its list, unless it is put over them.
#[test]
fn sets_and_frame_files() {
    let folder = folder("sets and files");
    for radius in [4, 6] {
        let file = started(radius).bytes();
        let expected = judge::printed(&file, Room::FREE);
        fs::write(folder.join("a.frame"), file).unwrap();
        for set in ["default", "existing-sites"] {
            let output = run(&folder, &["--settings", set, "a.frame"]);
            assert_eq!((&output.stdout, status(&output)), (&expected, 0));
            assert!(error(&output).contains("--override"));
        }
        assert_eq!(run(&folder, &["a.frame"]).stdout, expected);
    }
    // A set has all settings, so nothing of the file's own is left.
    fs::write(
        folder.join("a.frame"),
        Frame {
            ray: 1,
            blur: 3,
            least: 9,
            ..started(1)
        }
        .bytes(),
    )
    .unwrap();
    for (set, radius) in [("default", 6), ("existing-sites", 4)] {
        let words = [
            "--settings",
            set,
            "--peak-fit=parabolic",
            "--override",
            "a.frame",
        ];
        let expected = judge::printed(&started(radius).bytes(), Room::FREE);
        assert_eq!(run(&folder, &words).stdout, expected, "{set}");
    }
    let output = run(&folder, &["read", "--settings=default", "a.record"]);
    assert!(status(&output) == 2 && error(&output).contains("settings do not go with read"));
}

#[test]
fn a_refusal_leaves_nothing_old() {
    let folder = folder("refusal");
    let (frames, lists) = (folder.join("frames"), folder.join("lists"));
    fs::create_dir_all(&frames).unwrap();
    let names = ["good.frame", "refused.frame", "damaged.pgm", "missing.pgm"];
    for name in names {
        fs::write(frames.join(name), document_frame().bytes()).unwrap();
    }
    let words = ["--out", "lists", "frames", "--draw", "svg"];
    assert_eq!(status(&run(&folder, &words)), 0);
    assert_eq!(fs::read_dir(&lists).unwrap().count(), 9);
    fs::write(frames.join("refused.frame"), refused()).unwrap();
    fs::write(frames.join("damaged.pgm"), b"P5 9 9 255 ").unwrap();
    fs::remove_file(frames.join("missing.pgm")).unwrap();
    let output = run(&folder, &["--out", "lists", "frames"]);
    assert_eq!((out(&output).as_str(), status(&output)), ("", 1));
    assert_eq!(results(&lists, "good.frame"), ["good.frame.corners"]);
    assert_eq!(
        fs::read_to_string(lists.join("good.frame.corners")).unwrap(),
        DOCUMENT
    );
    for name in &names[1..] {
        assert!(results(&lists, name).is_empty(), "{name}");
        assert!(error(&output).contains(&format!("{name}: ")), "{name}");
    }
    assert!(error(&output).contains("refused 5: the ray radius is over 7"));
    assert!(error(&output).contains("missing.pgm: gone"));
    assert!(error(&output).contains("4 frames, 3 without a list"));
}

/// Two cameras in one folder: the results lie in the same subfolders as the frames.
#[test]
fn beside_the_frame_and_in_a_folder() {
    let folder = folder("beside");
    for year in ["2024", "2025"] {
        fs::create_dir_all(folder.join(year)).unwrap();
        let frame = folder.join(year).join("dawn.frame");
        fs::write(frame, document_frame().bytes()).unwrap();
    }
    for (words, lists) in [
        (
            ["--out", "lists", "2024", "2025"],
            ["lists/2024", "lists/2025"],
        ),
        (
            ["--out", "lists", ".", "--quiet"],
            ["lists/2024", "lists/2025"],
        ),
        (["--out", "one", "2024", "--quiet"], ["one", "one"]),
    ] {
        assert_eq!(status(&run(&folder, &words)), 0);
        for list in lists {
            assert_eq!(
                results(&folder.join(list), "dawn.frame"),
                ["dawn.frame.corners"]
            );
        }
    }
    let output = run(
        &folder,
        &["--out", "lists", "2024/dawn.frame", "2025/dawn.frame"],
    );
    assert_eq!(status(&output), 2, "two frames for one list");
    assert!(error(&output).contains("would both write"));
    let output = run(
        &folder,
        &["--beside", "--draw", "svg", "--draw", "png", "2024", "2025"],
    );
    assert_eq!(status(&output), 0);
    for year in ["2024", "2025"] {
        let names = results(&folder.join(year), "dawn.frame");
        assert_eq!(
            names,
            ["dawn.frame.corners", "dawn.frame.png", "dawn.frame.svg"]
        );
        assert!(folder.join(year).join("run.json").exists());
    }
}

#[test]
fn damaged_pictures() {
    let folder = folder("damaged");
    let cases: [(&[u8], &str); 20] = [
        (b"", "refused 11"),
        (b"P", "refused 11"),
        (b"P5", "no width"),
        (b"P5\n", "no width"),
        (b"P57 7 255\n", "no width"),
        (b"P5 7", "no height"),
        (b"P5 7 7", "no greatest value"),
        (b"P5 # 7 7 255", "no width"),
        (b"P5 -7 7 255\n", "no width"),
        (
            b"P5 7 7 255",
            "cut off: 7 by 7 pixels need 49 bytes, 0 are there",
        ),
        (b"P5 7 7 255\n1234", "49 bytes, 4 are there"),
        (b"P5 1 1 255\n12", "1 bytes follow"),
        (b"P5 0 7 255\n", "no picture: 0 by 7"),
        (b"P5 7 0 255\n", "no picture: 7 by 0"),
        (
            b"P5 7 7 65535\n",
            "a 16-bit PGM (greatest value 65535): only 8-bit grey PGM",
        ),
        (b"P5 7 7 0\n", "greatest value of 0"),
        (b"P5 1 1 9\nx", "a pixel of 120 above"),
        (
            b"P5 4097 1 255\n",
            "refused 2: width or height is over 4,096",
        ),
        (b"P5 4294967295 4294967295 255\n", "refused 2"),
        (b"P5 99999999999999999999 1 255\n", "width has 20 digits"),
    ];
    for (at, (content, expected)) in cases.iter().enumerate() {
        let name = format!("{at}.pgm");
        fs::write(folder.join(&name), content).unwrap();
        let output = run(&folder, &[&name]);
        let text = error(&output);
        assert!(
            text.contains(&format!("{name}: ")) && text.contains(expected),
            "{at}: {text}"
        );
        assert_eq!(status(&output), 1);
    }
    let others: [(&[u8], &str); 9] = [
        (b"\x89PNG\r\n\x1a\n", "a PNG picture"),
        (b"\xff\xd8\xff\xe0", "a JPEG picture"),
        (b"II*\0", "a TIFF picture"),
        (b"MM\0*", "a TIFF picture"),
        (b"BM1234", "a BMP picture"),
        (b"P2 1 1 255 7", "a plain PGM (P2)"),
        (b"P6 1 1 255 777", "a colour picture (P6)"),
        (b"GIF89a", "a GIF picture"),
        (b"P4 1 1 7", "a bitmap (P4)"),
    ];
    for (content, kind) in others {
        fs::write(folder.join("its 1.pgm"), content).unwrap();
        let text = error(&run(&folder, &["its 1.pgm"]));
        assert!(
            text.starts_with(&format!("its 1.pgm: {kind}: only 8-bit grey")),
            "{text}"
        );
        let line = "convert 'its 1.pgm' -colorspace Gray -depth 8 'its 1.8bit.pgm'";
        assert!(text.contains(line), "{text}");
    }
    fs::write(folder.join("strange"), [7; 100]).unwrap();
    let text = error(&run(&folder, &["strange"]));
    assert!(text.contains("refused 12: ") && text.contains("of no picture that is known"));
}

/// Pictures that other programs write: comments anywhere in the opening, one line feed behind the pixels.
#[test]
fn openings_and_ends() {
    let folder = folder("openings");
    let pixels = document_frame().pixels;
    for (at, (head, tail)) in [
        ("P5 7 7 255\n", ""),
        ("P5\n# made at dawn\n7 # wide\n7\n# most\n255\n", ""),
        ("P5 7 7 255 # grey\n", ""),
        ("P5 7 7 255\n# by a camera\n", ""),
        ("P5 7 7 255\n", "\n"),
        ("P5 7 7 255 # grey\n", "\n"),
    ]
    .into_iter()
    .enumerate()
    {
        let file = [head.as_bytes(), &pixels, tail.as_bytes()].concat();
        fs::write(folder.join("a.pgm"), file).unwrap();
        let output = run(&folder, &[&SETTINGS[..], &["a.pgm"]].concat());
        assert_eq!(
            (out(&output).as_str(), error(&output).as_str()),
            (DOCUMENT, ""),
            "{at}"
        );
    }
    // A pixel that looks like a comment's sign is a pixel.
    let hashes = Frame {
        pixels: [&b"#\n".repeat(24)[..], b"#"].concat(),
        ..document_frame()
    };
    let file = [b"P5 7 7 255\n", &hashes.pixels[..]].concat();
    fs::write(folder.join("hash.pgm"), file).unwrap();
    fs::write(folder.join("hash.frame"), hashes.bytes()).unwrap();
    let output = run(&folder, &[&SETTINGS[..], &["hash.pgm"]].concat());
    assert_eq!((status(&output), error(&output)), (0, String::new()));
    assert_eq!(out(&output), out(&run(&folder, &["hash.frame"])));
}

/// What a fitter reads of a frame that is too small to judge.
const TOO_SMALL: &str =
    "the frame is too small to judge: its working width or height is at most twice \
    (ray + suppression + 1); look at the crop, the camera mode and the radii, not at the panel";

/// The verdicts of a frame that was not searched, as a field of JSON.
const NONE: &str = "\"verdicts\":{\"not_above\":0,\"beaten\":0,\"too_few\":0,\"too_flat\":0,\
    \"wrong_curvature\":0,\"kept\":0}";
/// And of document 01's frame: its one candidate is kept.
const KEPT: &str = "\"verdicts\":{\"not_above\":0,\"beaten\":0,\"too_few\":0,\"too_flat\":0,\
    \"wrong_curvature\":0,\"kept\":1}";

/// A grey picture: an empty panel, if it is large enough.
fn grey(width: usize, height: usize) -> Vec<u8> {
    let head = format!("P5 {width} {height} 255\n");
    [head.as_bytes(), &vec![100; width * height]].concat()
}

/// A camera that is cropped too far has no list, none from yesterday either, and is told as what it is in every format; one
/// pixel more is an empty list.
#[test]
fn a_cropped_camera() {
    let folder = folder("cropped");
    let (frames, lists) = (folder.join("frames"), folder.join("lists"));
    fs::create_dir_all(&frames).unwrap();
    let call = |format: &'static str| {
        let words = [
            "--quiet", "--out", "lists", "--draw", "svg", "--draw", "png",
        ];
        run(
            &folder,
            &[&words[..], &["--format", format, "frames"]].concat(),
        )
    };
    for format in ["list", "csv", "json", "record"] {
        fs::write(frames.join("dawn.pgm"), grey(12, 12)).unwrap();
        let output = call(format);
        assert_eq!((status(&output), error(&output)), (0, String::new()));
        assert_eq!(results(&lists, "dawn.pgm").len(), 3);
        fs::write(frames.join("dawn.pgm"), grey(11, 40)).unwrap();
        let output = call(format);
        let need = "it has 11 by 40 pixels, and with these settings each side needs 12 or more";
        let message = format!("frames/dawn.pgm: refused 15: {TOO_SMALL}; {need}\n");
        assert_eq!((status(&output), error(&output)), (1, message));
        assert!(results(&lists, "dawn.pgm").is_empty());
        let manifest = fs::read_to_string(lists.join("run.json")).unwrap();
        for told in [
            "\"answer\":15,".to_string(),
            format!("\"words\":\"refused 15: {TOO_SMALL}; {need}\","),
            format!("\"count\":0,{NONE},\"results\":[]"),
        ] {
            assert!(manifest.contains(&told), "{told}: {manifest}");
        }
        let output = run(&folder, &["--format", format, "frames/dawn.pgm"]);
        let printed = match format {
            "list" => "refused 15\n".to_string(),
            "csv" => "file,corner,x,y,strength\n".to_string(),
            "json" => format!(
                "{{\"file\":\"frames/dawn.pgm\",\"refused\":15,\"reason\":\"{TOO_SMALL}\",{NONE}}}\n"
            ),
            _ => String::new(),
        };
        assert_eq!((out(&output), status(&output)), (printed, 1));
    }
}

/// The least sizes for settings, by width and by height, of pictures and of frame files; and of cameras of an arch.
#[test]
fn the_least_sizes() {
    let folder = folder("least");
    let printed = |width, height, words: &[&str]| {
        fs::write(folder.join("a.pgm"), grey(width, height)).unwrap();
        let output = run(&folder, &[words, &["a.pgm"]].concat());
        (out(&output), status(&output))
    };
    let small = || ("refused 15\n".to_string(), 1);
    let radii = ["--ray-radius=7", "--nms-radius=32"];
    for (least, factor, words) in [
        (12, 2, &[][..]),
        (23, 1, &["--image-upsample=1"]),
        (10, 2, &["--settings=existing-sites"]),
        (19, 1, &["--settings=existing-sites", "--image-upsample=1"]),
        (7, 1, &SETTINGS),
        (7, 1, &[&SETTINGS[..], &["--ray-radius=0"]].concat()),
        (41, 2, &radii),
        (81, 1, &[&radii[..], &["--image-upsample=1"]].concat()),
    ] {
        let side = factor * least;
        let list = format!("{side} {side} 0\n");
        assert_eq!(printed(least, least, words), (list, 0), "{words:?}");
        assert_eq!(printed(least - 1, least, words), small(), "{words:?}");
        assert_eq!(printed(least, least - 1, words), small(), "{words:?}");
    }
    let none = Frame {
        width: 0,
        pixels: Vec::new(),
        ..document_frame()
    };
    fs::write(folder.join("none.frame"), none.bytes()).unwrap();
    let output = run(&folder, &["none.frame"]);
    assert_eq!((out(&output), status(&output)), small());
    let needs = "; it has 0 by 7 pixels, and with these settings each side needs 7 or more\n";
    assert!(error(&output).ends_with(needs), "{}", error(&output));
    // The cameras beside them are found as ever.
    fs::write(folder.join("b.frame"), document_frame().bytes()).unwrap();
    fs::write(folder.join("c.pgm"), grey(9, 40)).unwrap();
    let cameras = ["none.frame", "b.frame", "c.pgm"];
    let output = run(&folder, &[&["arch", "--quiet"][..], &cameras].concat());
    let expected = format!(
        "# camera 1: none.frame\nrefused 15: {TOO_SMALL}\n# camera 2: b.frame\n{DOCUMENT}\
         # camera 3: c.pgm\nrefused 15: {TOO_SMALL}\n"
    );
    assert_eq!((out(&output), status(&output)), (expected, 1));
    let message = error(&output);
    assert!(message.contains("camera 3: c.pgm: refused 15: ") && message.contains(" has 9 by 40 "));
    let words = ["arch", "--quiet", "--format", "csv"];
    let output = run(&folder, &[&words[..], &cameras].concat());
    let line = format!("3,c.pgm,15,\"{TOO_SMALL}\",,,,\n");
    assert!(out(&output).ends_with(&line), "{}", out(&output));
}

/// A large frame that would do without doubling is told so.
#[test]
fn advice_for_large_frames() {
    let folder = folder("large");
    let picture = |width: usize, height: usize| {
        let head = format!("P5 {width} {height} 255\n");
        [head.as_bytes(), &vec![0; width * height]].concat()
    };
    fs::write(folder.join("a.pgm"), picture(2048, 2048)).unwrap();
    let output = run(&folder, &["a.pgm"]);
    let advice = "refused 4: there are over 8,388,608 working pixels; --image-upsample 1 would do";
    assert!(error(&output).contains(advice), "{}", error(&output));
    let output = run(&folder, &["--image-upsample=1", "a.pgm"]);
    assert_eq!(
        (out(&output).as_str(), status(&output)),
        ("2048 2048 0\n", 0)
    );
    fs::write(folder.join("b.pgm"), picture(4096, 2049)).unwrap();
    let output = run(&folder, &["b.pgm"]);
    assert!(error(&output).contains("refused 4") && !error(&output).contains("would do"));
}

/// The frame file of a picture is the one that the program and the Rust read.
#[test]
fn frame_files_of_pictures() {
    let folder = folder("made");
    fs::write(folder.join("a.pgm"), pgm(&document_frame())).unwrap();
    let threshold = ["--threshold-rel", "0.28", "a.pgm"];
    let output = run(&folder, &[&["frame"][..], &SETTINGS, &threshold].concat());
    assert_eq!(
        (output.stdout.clone(), error(&output)),
        (document_frame().bytes(), String::new())
    );
    fs::write(folder.join("a.frame"), &output.stdout).unwrap();
    assert_eq!(out(&run(&folder, &["a.frame"])), DOCUMENT);
    let output = run(&folder, &["frame", "a.frame"]);
    assert_eq!((status(&output), output.stdout.len()), (1, 0));
    assert!(error(&output).contains("a.frame: is a frame file already"));
    let picture = |width: usize, height: usize| {
        let head = format!("P5 {width} {height} 255\n");
        [head.as_bytes(), &vec![0; width * height]].concat()
    };
    fs::write(folder.join("wide.pgm"), picture(60, 39)).unwrap();
    let output = run(&folder, &["frame", "wide.pgm"]);
    assert!(error(&output).contains("2360 bytes: the program `corners` has room for 2324"));
    assert_eq!(output.stdout.len(), 2360);
    fs::write(folder.join("small.pgm"), picture(30, 30)).unwrap();
    assert!(error(&run(&folder, &["frame", "small.pgm"])).contains("3600 working pixels"));
    fs::write(folder.join("cropped.pgm"), picture(600, 11)).unwrap();
    fs::write(folder.join("least.pgm"), picture(12, 12)).unwrap();
    let note =
        "note: too small to judge, 15: with these settings each side needs 12 pixels or more";
    let output = run(&folder, &["frame", "--image-upsample=2", "cropped.pgm"]);
    assert_eq!(
        error(&output),
        "cropped.pgm: note: 6620 bytes: the program `corners` has room for 2324 and answers 10\n"
    );
    fs::write(folder.join("cropped.pgm"), picture(200, 11)).unwrap();
    let output = run(&folder, &["frame", "cropped.pgm"]);
    assert_eq!(
        (error(&output), output.stdout.len()),
        (format!("cropped.pgm: {note}\n"), 2220)
    );
    assert_eq!(error(&run(&folder, &["frame", "least.pgm"])), "");
    let output = run(&folder, &["frame", "--ray-radius", "256", "small.pgm"]);
    assert!(error(&output).contains("no room for such sizes or settings"));
    for words in [
        &["frame"][..],
        &["frame", "a", "b"],
        &["frame", "--out", "x", "a"],
    ] {
        assert_eq!(status(&run(&folder, words)), 2, "{words:?}");
    }
}

#[test]
fn files_without_end() {
    let folder = folder("long");
    let file = fs::File::create(folder.join("long.pgm")).unwrap();
    file.set_len(1 << 40).unwrap();
    let output = run(&folder, &["long.pgm"]);
    assert_eq!(
        (out(&output).as_str(), status(&output)),
        ("refused 10\n", 1)
    );
    assert!(error(&run(&folder, &["/dev/zero"])).contains("/dev/zero: not a regular file"));
    fs::create_dir_all(folder.join("empty")).unwrap();
    let output = run(&folder, &["empty"]);
    assert_eq!(status(&output), 1);
    assert!(error(&output).contains("empty: no .pgm or .frame file in it"));
}

/// Made and damaged frame files: what the original says, or the same refusal.
#[test]
fn many_frame_files() {
    let folder = folder("many");
    let frames = folder.join("frames");
    fs::create_dir_all(&frames).unwrap();
    let file = |index: u64| match index % 2 {
        0 => judge::make(17, index),
        _ => judge::damaged(17, index),
    };
    for index in 0..300 {
        fs::write(frames.join(format!("{index:03}.frame")), file(index)).unwrap();
    }
    let output = run(
        &folder,
        &["--out", "lists", "--draw", "svg", "--draw", "png", "frames"],
    );
    assert_eq!(status(&output), 1);
    for index in 0..300 {
        let name = format!("{index:03}.frame");
        let expected = judge::printed(&file(index), Room::FREE);
        let list = fs::read(folder.join(format!("lists/{name}.corners")));
        let drawn = folder.join(format!("lists/{name}.svg")).exists();
        match expected.strip_prefix(b"refused ") {
            Some(number) => {
                let number = String::from_utf8_lossy(number.trim_ascii()).into_owned();
                assert!(list.is_err() && !drawn, "{name}");
                assert!(
                    error(&output).contains(&format!("{name}: refused {number}: ")),
                    "{name}"
                );
            }
            // Gaussian places are the platform's: sizes, count and strengths alone.
            None => assert_eq!(strengths(&list.unwrap()), strengths(&expected), "{name}"),
        }
    }
}

/// The first line, and the last word of the others.
fn strengths(list: &[u8]) -> Vec<String> {
    let text = String::from_utf8_lossy(list).into_owned();
    let mut lines = text.lines();
    let first = lines.next().unwrap_or_default().to_string();
    let words = lines.map(|line| line.rsplit(' ').next().unwrap_or_default().to_string());
    std::iter::once(first).chain(words).collect()
}

#[test]
fn csv_and_json() {
    let folder = folder("formats");
    fs::write(folder.join("a, \"b\".frame"), document_frame().bytes()).unwrap();
    fs::write(folder.join("refused.frame"), refused()).unwrap();
    let words = |format| {
        [
            "--quiet",
            "--format",
            format,
            "a, \"b\".frame",
            "refused.frame",
        ]
    };
    let csv = run(&folder, &words("csv"));
    assert_eq!(
        out(&csv),
        "file,corner,x,y,strength\n\"a, \"\"b\"\".frame\",0,3,3,160000\n"
    );
    let json = run(&folder, &words("json"));
    assert_eq!(
        out(&json),
        format!(
            "{{\"file\":\"a, \\\"b\\\".frame\",\"working_width\":7,\"working_height\":7,\"count\":1,{KEPT},\
             \"corners\":[{{\"x\":3,\"y\":3,\"strength\":160000}}]}}\n\
             {{\"file\":\"refused.frame\",\"refused\":5,\"reason\":\"the ray radius is over 7\",{NONE}}}\n"
        )
    );
    assert_eq!((status(&csv), status(&json)), (1, 1));
    let output = run(&folder, &["--format", "csv", "--beside", "a, \"b\".frame"]);
    assert_eq!(status(&output), 0);
    assert!(fs::read_to_string(folder.join("a, \"b\".frame.csv"))
        .unwrap()
        .starts_with("file,corner,"));
}

/// The record of a printed list, put together from document 02's layout.
fn record_of(list: &str) -> Vec<u8> {
    let mut lines = list.lines();
    let sizes: Vec<u32> = words(&mut lines, 10);
    let numbers: Vec<u32> = lines
        .flat_map(|line| words(&mut [line].into_iter(), 16))
        .collect();
    let mut record = vec![1];
    record.extend((8 + 4 * numbers.len() as u32).to_be_bytes());
    record.extend((sizes[0] as u16).to_be_bytes());
    record.extend((sizes[1] as u16).to_be_bytes());
    record.extend(sizes[2].to_be_bytes());
    record.extend(numbers.iter().flat_map(|number| number.to_be_bytes()));
    record
}

/// The numbers of the next line.
fn words<'a>(lines: &mut impl Iterator<Item = &'a str>, radix: u32) -> Vec<u32> {
    let line = lines.next().unwrap();
    let number = |word: &str| u32::from_str_radix(word, radix).unwrap();
    line.split(' ').map(number).collect()
}

/// Frames of many kinds and sizes by their names: boards and noise, none and many corners.
fn several_frames() -> BTreeMap<String, Vec<u8>> {
    let mut frames = BTreeMap::new();
    frames.insert("document.frame".to_string(), document_frame().bytes());
    frames.insert("document.pgm".to_string(), pgm(&document_frame()));
    for index in 0..12 {
        let frame = judge::made(51, index, Sizes::up_to(300)).frame;
        frames.insert(format!("{index}.pgm"), pgm(&frame));
        frames.insert(format!("{index}.frame"), judge::make(52, index));
    }
    let random = &mut judge::random::Random::new(53, 0);
    let noise = Frame {
        width: 300,
        height: 200,
        pixels: judge::pictures::picture(random, Kind::Random, 300, 200),
        suppression: 0,
        least: 0,
        threshold: 0,
        ..document_frame()
    };
    frames.insert("noise.frame".to_string(), noise.bytes());
    frames
}

/// A frame's list, and the list of its record, in every format; a frame that is refused has no record.
#[test]
fn records_of_frames() {
    let folder = folder("records");
    let (mut refusals, mut most) = (0, 0);
    for (name, content) in several_frames() {
        fs::write(folder.join(&name), content).unwrap();
        let list = run(&folder, &[&name]);
        let kept = run(&folder, &["--format", "record", &name]);
        assert_eq!(status(&kept), status(&list));
        if status(&list) != 0 {
            assert_eq!((kept.stdout.len(), error(&kept)), (0, error(&list)));
            refusals += 1;
            continue;
        }
        assert_eq!(kept.stdout, record_of(&out(&list)), "{name}");
        most = most.max(out(&list).lines().count());
        let record = format!("{name}.record");
        fs::write(folder.join(&record), &kept.stdout).unwrap();
        for format in ["list", "csv", "json", "record"] {
            let expected = run(&folder, &["--format", format, &name]).stdout;
            for read in [
                run(&folder, &["read", "--format", format, &record]),
                fed(&folder, &["read", "--format", format, "-"], &kept.stdout),
            ] {
                assert_eq!((status(&read), error(&read)), (0, String::new()));
                // A record has its own name for the frame's, and no verdicts.
                let text = String::from_utf8_lossy(&read.stdout);
                let text = text
                    .replace(&record, &name)
                    .replace("standard input", &name);
                let same = match format {
                    "record" => read.stdout == expected,
                    "json" => text == unknown(&expected),
                    _ => text.as_bytes() == expected,
                };
                assert!(same, "{name} as {format}: {text}");
            }
        }
    }
    assert!(refusals < 8 && most > 2_000, "{refusals} {most}");
}

/// A list in JSON whose verdicts are not known.
fn unknown(json: &[u8]) -> String {
    let json = String::from_utf8_lossy(json);
    let (before, rest) = json.split_once("\"verdicts\":{").unwrap();
    let (_, behind) = rest.split_once('}').unwrap();
    format!("{before}\"verdicts\":null{behind}")
}

/// A folder of frames kept and read back: the same lists as from the frames, by the same rules.
#[test]
fn records_of_folders() {
    let folder = folder("kept");
    for (name, content) in several_frames() {
        let sub = ["frames", "frames/two"][name.len() % 2];
        fs::create_dir_all(folder.join(sub)).unwrap();
        fs::write(folder.join(sub).join(name), content).unwrap();
    }
    let frames = run(&folder, &["--out", "lists", "--quiet", "frames"]);
    let kept = run(
        &folder,
        &["--out", "kept", "--quiet", "--format", "record", "frames"],
    );
    assert_eq!(
        (status(&kept), error(&kept)),
        (status(&frames), error(&frames))
    );
    let again = run(&folder, &["read", "--out", "again", "kept"]);
    let lists = files(&folder.join("lists"), ".corners");
    let records = files(&folder.join("kept"), ".record");
    assert!(lists.len() > 15 && lists.len() == records.len());
    let message = format!("{} records, 0 without a list\n", records.len());
    assert_eq!((status(&again), error(&again)), (0, message));
    let read = files(&folder.join("again"), ".corners");
    let named = |text: &[u8], name: &str| {
        String::from_utf8_lossy(text).contains(&format!("\"results\":[\"{name}\"]"))
    };
    let manifests =
        ["kept", "again"].map(|name| fs::read(folder.join(name).join("run.json")).unwrap());
    for (name, list) in &lists {
        let record = name.replace(".corners", ".record");
        assert_eq!(records[&record], record_of(&String::from_utf8_lossy(list)));
        assert_eq!(read[&format!("{record}.corners")], *list);
        assert!(
            named(&manifests[0], &record) && named(&manifests[1], &format!("{record}.corners"))
        );
    }
    // A manifest over records has no settings to tell.
    let text = String::from_utf8_lossy(&manifests[1]);
    assert!(text.contains("\n\"settings\":null,\n"), "{text}");
    // Beside the records, where they are no run's results: in a copy, without its manifest.
    fs::rename(folder.join("kept"), folder.join("copy")).unwrap();
    fs::remove_file(folder.join("copy/run.json")).unwrap();
    let beside = run(
        &folder,
        &["read", "--beside", "--quiet", "--format", "csv", "copy"],
    );
    assert_eq!((status(&beside), error(&beside)), (0, String::new()));
    assert_eq!(files(&folder.join("copy"), ".csv").len(), records.len());
    assert_eq!(files(&folder.join("copy"), ".record"), records);
    // Printed one after the other, in the order of names, and several only as text.
    let printed = run(&folder, &["read", "--quiet", "copy"]);
    let heads: Vec<String> = out(&printed)
        .lines()
        .filter(|line| line.starts_with('#'))
        .map(str::to_string)
        .collect();
    assert!(heads.len() == records.len() && heads.is_sorted());
    let output = run(&folder, &["read", "--format", "record", "copy"]);
    assert_eq!((status(&output), out(&output).as_str()), (2, ""));
    assert!(error(&output).contains("several records do not go to standard output"));
}

/// The files of a folder, and below it, with an ending.
fn files(folder: &Path, ending: &str) -> BTreeMap<String, Vec<u8>> {
    let mut found = BTreeMap::new();
    for entry in fs::read_dir(folder).unwrap() {
        let entry = entry.unwrap();
        let name = entry.file_name().into_string().unwrap();
        if entry.path().is_dir() {
            let below = files(&entry.path(), ending);
            found.extend(
                below
                    .into_iter()
                    .map(|(file, content)| (format!("{name}/{file}"), content)),
            );
        } else if name.ends_with(ending) {
            found.insert(name, fs::read(entry.path()).unwrap());
        }
    }
    found
}

/// Document 02's first refusals of a record, from its text.
fn refusal_of(record: &[u8]) -> Option<u32> {
    let number = |from: usize| {
        u64::from(u32::from_be_bytes(
            record[from..from + 4].try_into().unwrap(),
        ))
    };
    if record.len() < 13 || number(1) + 5 != record.len() as u64 {
        return Some(16);
    }
    if record[0] != 1 {
        return Some(17);
    }
    if 8 + 12 * number(9) != number(1) || number(9) > 8_388_608 {
        return Some(18);
    }
    let stray = |at: usize| number(at) >> 23 & 0xFF == 0xFF;
    (13..record.len()).step_by(4).any(stray).then_some(19)
}

/// Every bit of a record turned, every length up to its own and some beyond, and counts that would wrap.
#[test]
fn damaged_records() {
    let folder = folder("records-damaged");
    let list = "14 300 2\n40400000 80000000 00800000\n00000001 7F7FFFFF 3F800000\n";
    let sound = record_of(list);
    let mut damaged = vec![sound.clone()];
    for bit in 0..8 * sound.len() {
        let mut record = sound.clone();
        record[bit / 8] ^= 1 << (bit % 8);
        damaged.push(record);
    }
    damaged.extend((0..sound.len()).map(|length| sound[..length].to_vec()));
    damaged.extend((1..30).map(|more| [&sound[..], &vec![0; more]].concat()));
    damaged.extend(
        [0x4000_0002u32, 0x8000_0002, 0xFFFF_FFFF]
            .map(|count| [&sound[..9], &count.to_be_bytes(), &sound[13..]].concat()),
    );
    let name = |at: usize| format!("{at:04}.record");
    fs::create_dir_all(folder.join("kept")).unwrap();
    for (at, record) in damaged.iter().enumerate() {
        fs::write(folder.join("kept").join(name(at)), record).unwrap();
    }
    let printed = run(&folder, &["read", "--quiet", "kept"]);
    let written = run(&folder, &["read", "--quiet", "--out", "lists", "kept"]);
    assert_eq!(
        (status(&printed), status(&written), out(&written).as_str()),
        (1, 1, "")
    );
    assert_eq!(error(&printed), error(&written));
    let text = out(&printed);
    let printed: BTreeMap<&str, &str> = text
        .split("# kept/")
        .skip(1)
        .filter_map(|part| part.split_once('\n'))
        .collect();
    let lists = files(&folder.join("lists"), ".corners");
    let manifest = fs::read_to_string(folder.join("lists/run.json")).unwrap();
    let mut seen = BTreeMap::new();
    for (at, record) in damaged.iter().enumerate() {
        let (name, number) = (name(at), refusal_of(record));
        *seen.entry(number).or_insert(0) += 1;
        match number {
            Some(number) => {
                assert_eq!(printed[name.as_str()], format!("refused {number}\n"));
                let message = format!("kept/{name}: refused {number}: ");
                assert!(error(&written).contains(&message), "{message}");
                assert!(!lists.contains_key(&format!("{name}.corners")));
                let row = manifest
                    .lines()
                    .find(|line| line.contains(&format!("\"name\":\"{name}\"")))
                    .unwrap();
                assert!(
                    row.contains(&format!("\"answer\":{number},"))
                        && row.contains("\"results\":[]"),
                    "{row}"
                );
            }
            None => {
                assert_eq!(record_of(printed[name.as_str()]), *record);
                assert_eq!(
                    lists[&format!("{name}.corners")],
                    printed[name.as_str()].as_bytes()
                );
            }
        }
    }
    assert_eq!(printed["0000.record"], list);
    for number in [None, Some(16), Some(17), Some(18), Some(19)] {
        assert!(seen.contains_key(&number), "{seen:?}");
    }
    assert_eq!(seen.values().sum::<usize>(), damaged.len());
    // In the other formats a refused record is what a refused frame is.
    fs::write(folder.join("bad.record"), b"").unwrap();
    for (format, text) in [
        ("csv", "file,corner,x,y,strength\n"),
        ("json", "{\"file\":\"bad.record\",\"refused\":16,\"reason\":\"the record has under 13 bytes or not the length that it states\",\"verdicts\":null}\n"),
        ("record", ""),
    ] {
        let output = run(&folder, &["read", "--format", format, "bad.record"]);
        assert_eq!((out(&output).as_str(), status(&output)), (text, 1));
    }
    // A frame file is no record, and a record no frame; a record's name says what to do.
    fs::write(folder.join("a.frame"), document_frame().bytes()).unwrap();
    assert!(error(&run(&folder, &["read", "a.frame"])).contains("a.frame: refused 18: "));
    // The second could be a frame of five pixels, which is too small.
    let frame_like = record_of("5 1 1\n01000000 00000000 00000000\n");
    fs::write(folder.join("frame-like.record"), frame_like).unwrap();
    for (name, number) in [("kept/0000.record", 14), ("frame-like.record", 15)] {
        let message = error(&run(&folder, &[name]));
        assert!(message.starts_with(&format!("{name}: refused {number}: ")));
        assert!(
            message.ends_with("; a record is printed by steyrbunk read\n"),
            "{message}"
        );
    }
}

/// The greatest record, one corner more, and files that no record can be.
#[test]
fn long_records() {
    let folder = folder("records-long");
    let sparse = |name: &str, count: u32, length: u64| {
        let stated = 8u32.wrapping_add(12u32.wrapping_mul(count));
        let head = [
            &[1][..],
            &stated.to_be_bytes(),
            &[0; 4],
            &count.to_be_bytes(),
        ]
        .concat();
        fs::write(folder.join(name), head).unwrap();
        let file = fs::OpenOptions::new()
            .write(true)
            .open(folder.join(name))
            .unwrap();
        file.set_len(length).unwrap();
    };
    let most = 8_388_608;
    sparse("most.record", most, 13 + 12 * u64::from(most));
    let output = run(&folder, &["read", "--format", "record", "most.record"]);
    assert_eq!((status(&output), error(&output)), (0, String::new()));
    assert!(output.stdout == fs::read(folder.join("most.record")).unwrap());
    sparse("more.record", most + 1, 13 + 12 * u64::from(most + 1));
    sparse("behind.record", most, 14 + 12 * u64::from(most));
    sparse("long.record", 0, 1 << 40);
    for (name, number) in [("more", 18), ("behind", 16)] {
        let output = run(&folder, &["read", &format!("{name}.record")]);
        assert_eq!(
            (out(&output), status(&output)),
            (format!("refused {number}\n"), 1),
            "{name}"
        );
    }
    let output = run(&folder, &["read", "long.record"]);
    assert_eq!((out(&output), status(&output)), (String::new(), 1));
    assert!(error(&output).contains("long.record: longer than any record that is taken"));
    fs::remove_dir_all(&folder).unwrap();
}

/// Four cameras by the names of their files, which are not in order: a list, a refusal, a picture's list, an empty list.
fn four_cameras() -> [(&'static str, Vec<u8>); 4] {
    [
        ("d.frame", document_frame().bytes()),
        ("b.frame", refused()),
        ("a.pgm", pgm(&document_frame())),
        ("c.frame", blank()),
    ]
}

/// What is printed of them, in each format.
fn four_printed() -> [(&'static str, String); 3] {
    let list = |camera: u32, file: &str| {
        format!(
            "{{\"camera\":{camera},\"file\":\"{file}\",\"working_width\":7,\"working_height\":7,"
        )
    };
    let corner =
        format!("\"count\":1,{KEPT},\"corners\":[{{\"x\":3,\"y\":3,\"strength\":160000}}]}}\n");
    let none = KEPT
        .replace("\"kept\":1", "\"kept\":0")
        .replace("\"not_above\":0", "\"not_above\":1");
    let json = [
        list(1, "d.frame") + &corner,
        format!("{{\"camera\":2,\"file\":\"b.frame\",\"refused\":5,\"reason\":\"the ray radius is over 7\",{NONE}}}\n"),
        list(3, "a.pgm") + &corner,
        list(4, "c.frame") + &format!("\"count\":0,{none},\"corners\":[]}}\n"),
    ];
    [
        (
            "list",
            format!(
                "# camera 1: d.frame\n{DOCUMENT}# camera 2: b.frame\nrefused 5: the ray radius is over 7\n\
                 # camera 3: a.pgm\n{DOCUMENT}# camera 4: c.frame\n7 7 0\n"
            ),
        ),
        (
            "csv",
            "camera,file,answer,words,corner,x,y,strength\n1,d.frame,0,,0,3,3,160000\n\
             2,b.frame,5,the ray radius is over 7,,,,\n3,a.pgm,0,,0,3,3,160000\n4,c.frame,0,,,,,\n"
                .to_string(),
        ),
        ("json", json.concat()),
    ]
}

/// The cameras of an arch by the names of their files, or end to end in one: the same lists, and a refusal that is seen.
#[test]
fn an_arch() {
    let folder = folder("arch");
    let mut together = Vec::new();
    for (name, content) in four_cameras() {
        fs::write(folder.join(name), &content).unwrap();
        together.extend(match name {
            "a.pgm" => document_frame().bytes(),
            _ => content,
        });
    }
    let names = four_cameras().map(|(name, _)| name);
    fs::write(folder.join("all"), &together).unwrap();
    fs::write(
        folder.join("more"),
        [&together[..], b"bytes behind"].concat(),
    )
    .unwrap();
    for (format, printed) in four_printed() {
        let words = [&["arch", "--format", format][..], &SETTINGS, &names].concat();
        let output = run(&folder, &words);
        assert_eq!((out(&output), status(&output)), (printed.clone(), 1));
        assert_eq!(
            error(&output),
            "camera 1: d.frame: note: a frame file has its own settings; --override replaces them\n\
             camera 2: b.frame: refused 5: the ray radius is over 7\n4 cameras, 1 without a list\n"
        );
        let words = ["arch", "--quiet", "--cameras", "4", "--format", format];
        for name in ["all", "more", "-"] {
            let words = [&words[..], &[name]].concat();
            let (output, shown) = match name {
                "-" => (fed(&folder, &words, &together), "standard input"),
                _ => (run(&folder, &words), name),
            };
            let expected = names
                .iter()
                .fold(printed.clone(), |text, file| text.replace(file, shown));
            assert_eq!((out(&output), status(&output)), (expected, 1));
            let message = format!("camera 2: {shown}: refused 5: the ray radius is over 7\n");
            assert_eq!(error(&output), message);
        }
    }
    let sound = run(&folder, &["arch", "--quiet", "d.frame", "c.frame"]);
    let list = format!("# camera 1: d.frame\n{DOCUMENT}# camera 2: c.frame\n7 7 0\n");
    assert_eq!((out(&sound), status(&sound)), (list, 0));
    let settings = ["--override", "--ray-radius", "8"];
    let output = run(&folder, &[&["arch"][..], &settings, &names].concat());
    assert_eq!(out(&output).matches("refused 5: ").count(), 4);
    // A picture with settings that no frame file can hold is not laid among the others.
    let words = ["arch", "--quiet", "--min-cluster-size", "65536"];
    let output = run(&folder, &[&words[..], &["a.pgm", "d.frame"]].concat());
    let text = "no list: a frame file has no room for such sizes or settings";
    let list = format!("# camera 1: a.pgm\n{text}\n# camera 2: d.frame\n{DOCUMENT}");
    assert_eq!((out(&output), status(&output)), (list, 1));
}

/// Three cameras that are not alike: a list, an empty one, and one of more corners.
fn three_cameras() -> [Vec<u8>; 3] {
    let many = several_frames().remove("noise.frame").unwrap();
    [document_frame().bytes(), blank(), many]
}

/// The list and the drawing that a frame has alone.
fn alone(folder: &Path, content: &[u8]) -> [Vec<u8>; 2] {
    fs::write(folder.join("alone.frame"), content).unwrap();
    let words = ["--out", "alone", "--draw", "svg", "alone.frame"];
    assert_eq!(status(&run(folder, &words)), 0);
    ["corners", "svg"]
        .map(|ending| fs::read(folder.join(format!("alone/alone.frame.{ending}"))).unwrap())
}

/// With --out each camera has its own results; a camera that is refused has none, and none from yesterday.
#[test]
fn results_of_an_arch() {
    let folder = folder("arch-results");
    let lists = folder.join("lists");
    // Two cameras whose files have one name, and names that are not in order.
    let files = ["right/dawn.frame", "left/dawn.frame", "above.frame"];
    let names = ["dawn.frame.1", "dawn.frame.2", "above.frame.3"];
    for camera in ["left", "right"] {
        fs::create_dir_all(folder.join(camera)).unwrap();
    }
    let cameras = three_cameras();
    let expected = cameras.each_ref().map(|content| alone(&folder, content));
    let words = ["arch", "--quiet", "--out", "lists", "--draw", "svg"];
    for turned_down in [None, Some(1), Some(0), Some(2), None] {
        for (at, file) in files.iter().enumerate() {
            let content = match turned_down == Some(at) {
                true => refused(),
                false => cameras[at].clone(),
            };
            fs::write(folder.join(file), content).unwrap();
        }
        let output = run(&folder, &[&words[..], &files].concat());
        let failed = i32::from(turned_down.is_some());
        assert_eq!((out(&output).as_str(), status(&output)), ("", failed));
        let manifest = fs::read_to_string(lists.join("run.json")).unwrap();
        let is_row = |line: &&str| line.starts_with("{\"name\"");
        let rows: Vec<&str> = manifest.lines().filter(is_row).collect();
        assert_eq!(rows.len(), 3);
        let mut there = 1;
        for (at, (row, name)) in rows.iter().zip(names).enumerate() {
            let camera = format!("/{}\",\"camera\":{},", files[at], at + 1);
            assert!(row.starts_with(&format!("{{\"name\":\"{name}\",")), "{row}");
            assert!(row.contains(&camera), "{row}");
            let results = ["corners", "svg"].map(|ending| format!("{name}.{ending}"));
            let told = match turned_down == Some(at) {
                true => "\"results\":[]".to_string(),
                false => format!("\"results\":[\"{}\",\"{}\"]", results[0], results[1]),
            };
            let answer = if turned_down == Some(at) { 5 } else { 0 };
            assert!(
                row.contains(&told) && row.contains(&format!("\"answer\":{answer},")),
                "{row}"
            );
            if turned_down != Some(at) {
                let contents = results.map(|result| fs::read(lists.join(result)).unwrap());
                assert!(contents == expected[at], "{name}");
                there += 2;
            }
        }
        assert_eq!(fs::read_dir(&lists).unwrap().count(), there);
    }
    let output = run(&folder, &[&["arch", "--beside"][..], &files].concat());
    assert_eq!((out(&output).as_str(), status(&output)), ("", 2));
    assert!(error(&output).contains("--beside wants all files of an arch in one folder"));
}

/// The same of frames in one file, beside it; and a number of cameras that is refused leaves no list either.
#[test]
fn results_of_an_arch_in_one_file() {
    let folder = folder("arch-file");
    let (cameras, one) = (three_cameras(), folder.join("one"));
    fs::create_dir_all(&one).unwrap();
    fs::write(one.join("all"), cameras.concat()).unwrap();
    let call = |cameras: &str, format: &str| {
        let words = [
            "arch", "--quiet", "--beside", "--draw", "svg", "--format", format,
        ];
        run(
            &folder,
            &[&words[..], &["--cameras", cameras, "one/all"]].concat(),
        )
    };
    let manifest = || fs::read_to_string(one.join("run.json")).unwrap();
    for format in ["list", "record"] {
        assert_eq!(status(&call("3", format)), 0);
        for (at, content) in cameras.iter().enumerate() {
            let [list, drawing] = alone(&folder, content);
            let (ending, list) = match format {
                "record" => ("record", record_of(&String::from_utf8(list).unwrap())),
                _ => ("corners", list),
            };
            let name = |ending| one.join(format!("all.{}.{ending}", at + 1));
            assert!(fs::read(name(ending)).unwrap() == list, "{at} as {format}");
            assert!(fs::read(name("svg")).unwrap() == drawing, "{at}");
        }
        assert_eq!(results(&one, "all").len(), 6);
    }
    assert!(manifest().contains("\n\"settings\":null,\n"));
    let bytes = format!("\"bytes\":{},", cameras.concat().len());
    for (told, times) in [(bytes.as_str(), 3), ("\"settings\":{\"ray_radius\":1,", 3)] {
        assert_eq!(manifest().matches(told).count(), times, "{told}");
    }
    for (cameras, entries) in [("9", 8), ("1", 1), ("0", 1), ("18446744073709551615", 8)] {
        assert_eq!(status(&call("2", "list")), 0);
        let output = call(cameras, "list");
        assert_eq!((out(&output).as_str(), status(&output)), ("", 1));
        assert_eq!(error(&output).matches("refused 21: ").count(), entries);
        assert!(results(&one, "all").is_empty(), "{cameras}");
        assert_eq!(manifest().matches("\"answer\":21,").count(), entries);
    }
}

/// A number of cameras that is not 2 to 8: nothing is read, and nothing is printed as a list.
#[test]
fn wrong_numbers_of_cameras() {
    let folder = folder("arch-numbers");
    fs::write(folder.join("a"), document_frame().bytes()).unwrap();
    let nine = [&["arch", "--quiet"][..], &["a"; 9]].concat();
    for words in [
        &["arch", "--quiet", "a"][..],
        &nine,
        &["arch", "--quiet", "--cameras", "0", "a"],
        &["arch", "--quiet", "--cameras", "1", "missing"],
        &["arch", "--quiet", "--cameras", "9", "a"],
        &["arch", "--quiet", "--cameras", "18446744073709551615", "a"],
    ] {
        for format in ["list", "csv", "json"] {
            let output = run(&folder, &[words, &["--format", format]].concat());
            assert_eq!(status(&output), 1, "{words:?}");
            let (text, message) = (out(&output), error(&output));
            assert!(message
                .lines()
                .all(|line| line.contains(": refused 21: the camera count")));
            let number = match format {
                "list" => "refused 21: ",
                "csv" => ",21,",
                _ => "\"refused\":21,",
            };
            // A refusal a camera, and nothing else but what goes before it.
            let is_head =
                |line: &&str| line.starts_with("# camera ") || line.starts_with("camera,");
            let rest: Vec<&str> = text.lines().filter(|line| !is_head(line)).collect();
            assert!(rest.iter().all(|line| line.contains(number)), "{text}");
            assert_eq!(rest.len(), message.lines().count());
            let heads = text
                .lines()
                .filter(|line| line.starts_with("# camera "))
                .count();
            assert_eq!(heads, if format == "list" { rest.len() } else { 0 });
        }
    }
    let message = error(&run(&folder, &["arch", "a"]));
    assert!(message.contains("; frame files end to end in one file go with --cameras"));
    for number in 2..=8 {
        let words = [&["arch", "--quiet"][..], &vec!["a"; number]].concat();
        let output = run(&folder, &words);
        assert_eq!(status(&output), 0);
        assert_eq!(out(&output).matches(DOCUMENT).count(), number);
    }
}

/// A file that is no whole frame file is answered as it is alone, and shifts no other camera's frame.
#[test]
fn damaged_files_of_an_arch() {
    let folder = folder("arch-damaged");
    let sound = document_frame().bytes();
    fs::write(folder.join("good"), &sound).unwrap();
    fs::create_dir_all(folder.join("bad folder")).unwrap();
    let mut damaged: Vec<Vec<u8>> = vec![
        b"".to_vec(),
        b"\x01".to_vec(),
        [&sound[..], &sound].concat(),
        b"P5 7 7 255\n".to_vec(),
        b"\x89PNG\r\n\x1a\n".to_vec(),
        [7; 100].to_vec(),
        vec![1, 0xFF, 0xFF, 0xFF, 0xFF, 0, 0],
    ];
    damaged.extend(
        (1..sound.len())
            .step_by(7)
            .map(|length| sound[..length].to_vec()),
    );
    damaged.extend([1, 5, 69].map(|more| [&sound[..], &vec![1; more]].concat()));
    let mut names = vec!["missing".to_string(), "bad folder".to_string()];
    for (at, content) in damaged.iter().enumerate() {
        names.push(format!("bad {at}"));
        fs::write(folder.join(&names[names.len() - 1]), content).unwrap();
    }
    for name in &names {
        // A folder alone is gone through; as a camera's file it is no file.
        let alone = match name.as_str() {
            "bad folder" => {
                "bad folder: not a regular file (a folder, pipe, socket or device)\n".to_string()
            }
            _ => error(&run(&folder, &[name])),
        };
        let words = alone.strip_prefix(&format!("{name}: ")).unwrap();
        for place in 1..=3 {
            let mut files = ["good"; 3];
            files[place - 1] = name;
            let output = run(&folder, &[&["arch", "--quiet"][..], &files].concat());
            assert_eq!(status(&output), 1);
            assert_eq!(error(&output), format!("camera {place}: {alone}"));
            let block = |camera: usize| match camera == place {
                true if words.starts_with("refused ") => {
                    words.split(';').next().unwrap().trim_end().to_string() + "\n"
                }
                true => format!("no list: {words}"),
                false => DOCUMENT.to_string(),
            };
            let expected: String = (1..=3)
                .map(|camera| {
                    format!(
                        "# camera {camera}: {}\n{}",
                        files[camera - 1],
                        block(camera)
                    )
                })
                .collect();
            // A strange file has more words on standard error.
            let expected =
                expected.replace(", and its opening is that of no picture that is known", "");
            assert_eq!(out(&output), expected);
        }
    }
    assert_eq!(names.len(), 2 + 7 + 10 + 3);
}

/// Where frames end to end begin, and what that alone answers: document 02's text, a second time.
fn shared_out(frames: &[u8], cameras: usize) -> Vec<Result<&[u8], u32>> {
    let (mut rest, mut shares) = (Some(frames), Vec::new());
    for _ in 0..cameras {
        let left = rest.unwrap_or_default();
        shares.push(if left.len() < 5 {
            rest = None;
            Err(11)
        } else {
            let stated = u32::from_be_bytes(left[1..5].try_into().unwrap()) as usize;
            rest = left.get(5 + stated..);
            left.get(..5 + stated).ok_or(13)
        });
    }
    shares
}

/// Made and damaged frame files end to end: each camera has what its frame alone has by the original.
#[test]
fn many_arches() {
    let folder = folder("arches");
    let (mut seen, mut lists) = (BTreeMap::new(), 0);
    for arch in 0..120u64 {
        let cameras = 2 + (arch % 7) as usize;
        let file = |camera: usize| match (arch + camera as u64) % 3 {
            0 => judge::damaged(61, 8 * arch + camera as u64),
            _ => judge::make(61, 8 * arch + camera as u64),
        };
        let mut frames = (0..cameras).map(file).collect::<Vec<_>>().concat();
        // Cut, whole, or with bytes behind.
        match arch % 3 {
            0 => frames.truncate(frames.len() - (arch as usize * 7) % frames.len().min(300)),
            1 => frames.extend([1; 30]),
            _ => {}
        }
        let words = ["arch", "--quiet", "--cameras", &cameras.to_string(), "-"];
        let output = fed(&folder, &words, &frames);
        let text = out(&output);
        let blocks: Vec<&str> = text.split("# camera ").skip(1).collect();
        assert_eq!(blocks.len(), cameras);
        let mut refusals = 0;
        for (at, share) in shared_out(&frames, cameras).into_iter().enumerate() {
            let head = format!("{}: standard input\n", at + 1);
            let block = blocks[at].strip_prefix(&head).unwrap();
            let alone = match share {
                Ok(file) => judge::printed(file, Room::FREE),
                Err(number) => format!("refused {number}\n").into_bytes(),
            };
            match alone.strip_prefix(b"refused ") {
                Some(number) => {
                    let number = String::from_utf8_lossy(number.trim_ascii()).into_owned();
                    assert!(
                        block.starts_with(&format!("refused {number}: ")),
                        "{arch}: {block}"
                    );
                    *seen.entry(number).or_insert(0) += 1;
                    refusals += 1;
                }
                None => {
                    assert_eq!(strengths(block.as_bytes()), strengths(&alone), "{arch}");
                    lists += 1;
                }
            }
        }
        assert_eq!(status(&output), i32::from(refusals > 0));
    }
    assert!(
        seen.contains_key("11") && seen.contains_key("13"),
        "{seen:?}"
    );
    assert!(seen.len() > 5 && lists > 200, "{seen:?} {lists}");
}

/// Files of frames that no arch has: longer than eight frames, a folder, a device, nothing. One that is longer than a frame is taken.
#[test]
fn strange_files_of_frames() {
    let folder = folder("arch-strange");
    let large = Frame {
        width: 4096,
        height: 2048,
        pixels: vec![0; 4096 * 2048],
        ..document_frame()
    };
    fs::write(folder.join("large"), large.bytes().repeat(3)).unwrap();
    let output = run(&folder, &["arch", "--quiet", "--cameras", "3", "large"]);
    assert_eq!(
        (
            out(&output).matches("4096 2048 0\n").count(),
            status(&output)
        ),
        (3, 0)
    );
    let long = fs::File::create(folder.join("long")).unwrap();
    long.set_len(1 << 40).unwrap();
    fs::create_dir_all(folder.join("sub")).unwrap();
    fs::write(folder.join("empty"), b"").unwrap();
    fs::write(folder.join("byte"), [1]).unwrap();
    for (name, words) in [
        ("long", "longer than any eight frames that are taken"),
        ("sub", "not a regular file"),
        ("/dev/zero", "not a regular file"),
        ("missing", "No such file"),
        ("empty", "refused 11: "),
        ("byte", "refused 11: "),
    ] {
        let output = run(&folder, &["arch", "--quiet", "--cameras", "2", name]);
        assert_eq!(status(&output), 1);
        for camera in 1..=2 {
            let message = format!("camera {camera}: {name}: {words}");
            assert!(error(&output).contains(&message), "{}", error(&output));
        }
        assert_eq!(out(&output).lines().count(), 4, "{}", out(&output));
    }
}

/// The chunks of a PNG, taken apart; what it stores, without the bytes in front of rows.
fn pixels(png: &[u8]) -> (usize, usize, Vec<u8>) {
    assert_eq!(png[..8], *b"\x89PNG\r\n\x1a\n");
    let u32_at = |at: usize| u32::from_be_bytes(png[at..at + 4].try_into().unwrap()) as usize;
    let (width, height, channels) = (u32_at(16), u32_at(20), [1, 0, 3][png[25] as usize]);
    let start = 33;
    assert_eq!(
        (&png[12..16], &png[start + 4..start + 8]),
        (&b"IHDR"[..], &b"IDAT"[..])
    );
    let stream = &png[start + 8..start + 8 + u32_at(start)];
    assert_eq!(png[start + 12 + u32_at(start)..][4..8], *b"IEND");
    let (mut rows, mut at, mut last) = (Vec::new(), 2, false);
    while !last {
        let length = u16::from_le_bytes([stream[at + 1], stream[at + 2]]);
        assert_eq!(
            u16::from_le_bytes([stream[at + 3], stream[at + 4]]),
            !length
        );
        last = stream[at] == 1;
        rows.extend(&stream[at + 5..at + 5 + length as usize]);
        at += 5 + length as usize;
    }
    assert_eq!(at + 4, stream.len());
    let plain = rows
        .chunks(1 + width * channels)
        .flat_map(|row| row[1..].to_vec());
    (width, height, plain.collect())
}

#[test]
fn drawings() {
    let folder = folder("drawings");
    fs::write(folder.join("a.frame"), document_frame().bytes()).unwrap();
    let output = run(
        &folder,
        &["--beside", "--draw", "svg", "--draw", "png", "a.frame"],
    );
    assert_eq!((status(&output), error(&output)), (0, String::new()));
    let svg = fs::read_to_string(folder.join("a.frame.svg")).unwrap();
    assert!(svg.contains("viewBox=\"0 0 7 7\"") && svg.contains("cx=\"3.5\" cy=\"3.5\""));
    assert!(svg.contains("href=\"data:image/png;base64,iVBORw0KGgo"));
    let (width, height, colours) = pixels(&fs::read(folder.join("a.frame.png")).unwrap());
    assert_eq!((width, height), (798, 798));
    let at = |x: usize, y: usize| &colours[3 * (y * width + x)..][..3];
    assert_eq!(
        (at(0, 0), at(797, 0), at(797, 797)),
        (&[200; 3][..], &[0; 3][..], &[200; 3][..])
    );
    assert_eq!(
        (at(399, 399), at(403, 399), at(399, 395)),
        (&[230, 0, 30][..], &[230, 0, 30][..], &[230, 0, 30][..])
    );
    // The smallest that is drawn: one that has no pixels has no list either.
    fs::write(folder.join("empty.frame"), blank()).unwrap();
    let output = run(&folder, &["--beside", "--draw", "png", "empty.frame"]);
    assert_eq!((status(&output), error(&output)), (0, String::new()));
    let drawn = fs::read(folder.join("empty.frame.png")).unwrap();
    assert_eq!(pixels(&drawn), (798, 798, vec![0; 3 * 798 * 798]));
}

#[test]
fn help_and_wrong_words() {
    let folder = folder("words");
    let help = run(&folder, &["--help"]);
    assert_eq!((status(&help), error(&help)), (0, String::new()));
    assert!(out(&help).lines().all(|line| line.len() <= 100));
    for words in [
        &[][..],
        &["--nothing", "a"],
        &["--format", "xml", "a"],
        &["--format"],
        &["--ray-radius", "four", "a"],
        &["--ray-radius", "-1", "a"],
        &["--draw", "svg", "a"],
        &["--draw", "gif", "--beside", "a"],
        &["--out", "x", "--beside", "a"],
        &["--image-upsample", "5", "a"],
        &["--image-upsample", "0", "a"],
        &["--image-upsample=2.0", "a"],
        &["--quiet=yes", "a"],
        &["--jobs", "0", "a"],
        &["-x", "a"],
        &["--beside", "-"],
        &["--format", "record", "a", "b"],
        &["read"],
        &["read", "--quiet"],
        &["read", "--nothing", "a"],
        &["read", "--draw", "svg", "--out", "x", "a"],
        &["read", "--why", "a"],
        &["--why=yes", "a"],
        &["--why", "--draw", "png", "a"],
        &["frame", "--why", "a"],
        &["read", "--ray-radius", "4", "a"],
        &["read", "--threshold-rel", "nan", "a"],
        &["read", "--override", "a"],
        &["read", "--format", "record", "a", "b"],
        &["read", "--beside", "-"],
        &["read", "--out", "x", "--beside", "a"],
        &["arch"],
        &["arch", "--cameras", "2"],
        &["arch", "--cameras"],
        &["arch", "--cameras", "two", "a"],
        &["arch", "--cameras", "-2", "a"],
        &["arch", "--cameras", "99999999999999999999", "a"],
        &["arch", "--cameras", "2", "a", "b"],
        &["arch", "--cameras", "2", "--ray-radius", "4", "a"],
        &["arch", "--cameras", "2", "--override", "a"],
        &["arch", "--draw", "svg", "a", "b"],
        &["arch", "--format", "record", "a", "b"],
        &["arch", "--format", "record", "--cameras", "2", "a"],
        &["arch", "--beside", "--cameras", "2", "-"],
        &["arch", "--beside", "a", "-"],
        &["--cameras", "2", "a"],
        &["read", "--cameras", "2", "a"],
    ] {
        let output = run(&folder, words);
        assert_eq!(
            (status(&output), out(&output).as_str()),
            (2, ""),
            "{words:?}"
        );
        assert!(error(&output).contains("--help"), "{words:?}");
    }
    let version = run(&folder, &["--version"]);
    assert_eq!(
        out(&version),
        format!("steyrbunk {}\n", env!("CARGO_PKG_VERSION"))
    );
    // After `--` a name may begin with two dashes.
    fs::write(folder.join("--odd.frame"), document_frame().bytes()).unwrap();
    assert_eq!(out(&run(&folder, &["--", "--odd.frame"])), DOCUMENT);
}
