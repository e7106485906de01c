//! `--why`: the six counts in every format, in words, and drawn; the lists stay as they are.

mod scenes;

use std::collections::BTreeMap;
use std::fs;
use std::path::{Path, PathBuf};
use std::process::{Command, Output};

use judge::{document_frame, Detector, Frame, Kind, Room, Sizes};

/// An empty folder for one test.
fn folder(name: &str) -> PathBuf {
    let folder = Path::new(env!("CARGO_TARGET_TMPDIR")).join(format!("why-{name}"));
    let _ = fs::remove_dir_all(&folder);
    fs::create_dir_all(&folder).unwrap();
    folder
}

/// Runs the command in a folder; whatever it meets, it must not panic.
fn run(folder: &Path, words: &[&str]) -> Output {
    let mut command = Command::new(env!("CARGO_BIN_EXE_steyrbunk"));
    let output = command.current_dir(folder).args(words).output().unwrap();
    assert!(!error(&output).contains("panicked"), "{}", error(&output));
    output
}

fn out(output: &Output) -> String {
    String::from_utf8(output.stdout.clone()).unwrap()
}

fn error(output: &Output) -> String {
    String::from_utf8_lossy(&output.stderr).into_owned()
}

fn status(output: &Output) -> i32 {
    output.status.code().unwrap()
}

fn pgm(width: usize, height: usize, pixel: impl Fn(usize, usize) -> u8) -> Vec<u8> {
    let mut file = format!("P5 {width} {height} 255\n").into_bytes();
    file.extend((0..width * height).map(|at| pixel(at % width, at / width)));
    file
}

/// A board of 64 by 48, as docs/USING.md has it: nine corners.
fn board() -> Vec<u8> {
    pgm(64, 48, |x, y| [40, 120][((x + 3) / 16 + (y + 8) / 16) % 2])
}

/// Document 01's frame with one setting that is refused, 5.
fn refused() -> Vec<u8> {
    Frame {
        ray: 8,
        ..document_frame()
    }
    .bytes()
}

/// Document 01's saddle moved so far to the right.
fn saddle(right: i32) -> Vec<u8> {
    let pixel = |at: i32| match (at % 7 - 3 - right) * (at / 7 - 3) {
        product if product > 0 => 200,
        0 => 100,
        _ => 0,
    };
    (0..49).map(pixel).collect()
}

/// Document 01's frame changed so that its one candidate has each verdict, in their order.
fn each_verdict() -> [Frame; 6] {
    let document = document_frame();
    let mut speck = vec![100; 49];
    speck[4 * 7 + 4] = 101;
    let edge = (0..49)
        .map(|at| [0, 200][usize::from(at % 7 > 2)])
        .collect();
    let pixels = |pixels| Frame {
        pixels,
        ..document.clone()
    };
    [
        pixels(vec![90; 49]),
        Frame {
            threshold: 0,
            ..pixels(saddle(1))
        },
        Frame {
            least: 9,
            ..document.clone()
        },
        pixels(speck),
        pixels(edge),
        document.clone(),
    ]
}

/// The six of a frame file by the judge's reading.
fn six(file: &[u8]) -> [u64; 6] {
    judge::reported(&mut Detector::new(), file, Room::FREE)
}

/// The six that a line of JSON has; nothing where they are not known.
fn told(line: &str) -> Option<[u64; 6]> {
    let (_, rest) = line.split_once("\"verdicts\":").unwrap();
    let counts = rest.strip_prefix('{')?.split_once('}').unwrap().0;
    let names = [
        "not_above",
        "beaten",
        "too_few",
        "too_flat",
        "wrong_curvature",
        "kept",
    ];
    let fields = counts.split(',').zip(names);
    let count = |(field, name): (&str, &str)| {
        let count = field.strip_prefix(&format!("\"{name}\":")).unwrap();
        count.parse::<u64>().unwrap()
    };
    let counts: Vec<u64> = fields.map(count).collect();
    Some(counts.try_into().unwrap())
}

/// Frames of every kind, taken and refused, by their names.
fn frames() -> BTreeMap<String, Vec<u8>> {
    let made = (0..40).map(|index| (format!("{index:02}.frame"), judge::make(71, index)));
    let mut frames: BTreeMap<String, Vec<u8>> = made.collect();
    for index in 0..4 {
        let board = judge::made(72, index, Sizes::up_to(150)).frame;
        frames.insert(format!("large {index}.frame"), board.bytes());
    }
    frames.insert("refused.frame".to_string(), refused());
    frames
}

/// JSON, CSV and the manifest have the six of every frame, by the judge's reading; six zeros where there is no list.
#[test]
fn every_format() {
    let folder = folder("formats");
    fs::create_dir_all(folder.join("frames/two")).unwrap();
    for (name, content) in frames() {
        fs::write(folder.join("frames").join(name), content).unwrap();
    }
    fs::write(folder.join("frames/two/damaged.pgm"), b"P5 9 9 255 ").unwrap();
    let json = run(&folder, &["--quiet", "--format", "json", "frames"]);
    let csv = run(&folder, &["--quiet", "--format", "csv", "--why", "frames"]);
    let plain = run(&folder, &["--quiet", "--format", "csv", "frames"]);
    let list = run(&folder, &["--quiet", "--out", "lists", "frames"]);
    assert_eq!([&json, &csv, &plain, &list].map(status), [1; 4]);
    let manifest = fs::read_to_string(folder.join("lists/run.json")).unwrap();
    let row = |text: &str, start: String| {
        let line = text.lines().find(|line| line.starts_with(&start));
        line.unwrap_or_else(|| panic!("{start}: {text}"))
            .to_string()
    };
    let (mut sums, mut refusals, mut empty) = ([0; 6], 0, 0);
    for (name, content) in frames() {
        let counts = six(&content);
        sums.iter_mut().zip(counts).for_each(|(sum, n)| *sum += n);
        let line = row(&out(&json), format!("{{\"file\":\"frames/{name}\","));
        assert_eq!(told(&line), Some(counts), "{name}");
        let line = row(&manifest, format!("{{\"name\":\"{name}\","));
        assert_eq!(told(&line), Some(counts), "{name}");
        assert!(!line.contains("\"why\""), "{line}");
        // In CSV behind the columns that there were, on each line of a frame, and on a line of their own without a corner.
        let behind = counts.map(|n| format!(",{n}")).concat();
        let front = format!("frames/{name},");
        let lines = |output: &Output| -> Vec<String> {
            let lines = out(output);
            let lines = lines.lines().filter(|line| line.starts_with(&front));
            lines.map(str::to_string).collect()
        };
        let mut expected: Vec<String> = lines(&plain);
        expected.iter_mut().for_each(|line| line.push_str(&behind));
        if expected.is_empty() {
            expected.push(format!("{front},,,{behind}"));
            empty += usize::from(counts != [0; 6]);
            refusals += usize::from(counts == [0; 6]);
        }
        assert_eq!(lines(&csv), expected);
    }
    assert!(
        sums.iter().all(|sum| *sum > 0) && refusals > 5 && empty > 2,
        "{sums:?} {refusals} {empty}"
    );
    let line = row(
        &out(&json),
        "{\"file\":\"frames/two/damaged.pgm\",\"error\":".to_string(),
    );
    assert_eq!(told(&line), Some([0; 6]));
    assert!(out(&csv).ends_with("\nframes/two/damaged.pgm,,,,,0,0,0,0,0,0\n"));
    let head = "file,corner,x,y,strength,not_above,beaten,too_few,too_flat,wrong_curvature,kept\n";
    assert!(out(&csv).starts_with(head) && out(&plain).starts_with("file,corner,x,y,strength\n"));
}

/// Nothing that was printed or written without it is another with it: lists, records, drawings; JSON has the six either way.
#[test]
fn lists_stay() {
    let folder = folder("stay");
    fs::create_dir_all(folder.join("frames")).unwrap();
    for (name, content) in frames() {
        fs::write(folder.join("frames").join(name), content).unwrap();
    }
    for format in ["list", "json"] {
        let words = ["--quiet", "--format", format, "frames"];
        let (plain, why) = (
            run(&folder, &words),
            run(&folder, &[&words[..], &["--why"]].concat()),
        );
        assert_eq!((out(&plain), status(&plain)), (out(&why), status(&why)));
        // A line more for each frame, behind what was said of it.
        let said = |output: &Output, is_why: bool| -> Vec<String> {
            let lines = error(output);
            let lines = lines
                .lines()
                .filter(|line| line.contains(": why: ") == is_why);
            lines.map(str::to_string).collect()
        };
        assert_eq!(said(&plain, false), said(&why, false));
        assert_eq!(
            (said(&plain, true).len(), said(&why, true).len()),
            (0, frames().len())
        );
    }
    for format in ["list", "json", "record"] {
        let words = [
            "--quiet", "--draw", "svg", "--draw", "png", "--format", format, "frames",
        ];
        let plain = run(&folder, &[&words[..], &["--out", "plain"]].concat());
        let why = run(&folder, &[&words[..], &["--out", "why", "--why"]].concat());
        assert_eq!(status(&plain), status(&why));
        let files = |name: &str| -> BTreeMap<String, Vec<u8>> {
            let entries = fs::read_dir(folder.join(name)).unwrap();
            let named = entries.map(|entry| entry.unwrap());
            let named = named.map(|entry| {
                (
                    entry.file_name().into_string().unwrap(),
                    fs::read(entry.path()).unwrap(),
                )
            });
            named.filter(|(name, _)| name != "run.json").collect()
        };
        let (plain, mut why) = (files("plain"), files("why"));
        let lists = plain.len() / 3;
        assert!(lists > 20);
        let before = why.len();
        why.retain(|name, _| !name.ends_with(".why.png"));
        assert_eq!(before - why.len(), lists);
        assert!(plain == why, "{format}");
    }
}

/// Counts as a person reads them.
fn counted(counts: [u64; 6]) -> String {
    let thousands = |n: u64| scenes::thousands(n as usize);
    let [not_above, beaten, too_few, too_flat, wrong, kept] = counts.map(thousands);
    format!(
        "{kept} kept of {} candidates; {not_above} not above the floor, {beaten} beaten by a neighbour, \
         {too_few} too few positive neighbours, {too_flat} too flat, {wrong} wrong curvature; ",
        thousands(counts.iter().sum())
    )
}

/// What a fitter reads of rendered panels, good and bad: the counts, and words that go by them. Quiet is for progress alone.
#[test]
fn words() {
    let folder = folder("words");
    let kept = "; fewer kept than the panel has corners: look at the aim, then at what hides or blurs a part of it; \
                many more: at dirt, light and other things in the picture";
    let faint = "peaks too flat or narrow: the picture may be faint or glaring, as by haze, a film on the lens, \
                 too little light or too much, and much that is kept may be noise";
    let edges = "wrong curvature: edges or spots besides corners, as by specks, glare, something before the panel, \
                 or a panel turned far away";
    let broad = "broad peaks (168 beaten for each, 20 to 30 at a sharp panel): out of focus or a film on the lens; \
                 with few kept, a panel too far off or turned too far away";
    let nothing = "nothing stands out: look for a cover, darkness or plain grey before the lens, \
                   or for something strong at the very edge";
    let clean = "no sign of blur, haze, specks or glare";
    for (name, said) in [
        ("sharp", format!("{clean}{kept}")),
        ("a quarter outside", format!("{clean}{kept}")),
        ("blurred", format!("{broad}{kept}")),
        ("glare on a tenth", format!("{edges}{kept}")),
        ("haze, contrast 2", format!("{faint}; {edges}{kept}")),
        ("black", format!("{faint}; {edges}{kept}")),
        ("black, no noise", nothing.to_string()),
    ] {
        let scenes = scenes::scenes(0);
        let scene = scenes.iter().find(|scene| scene.name == name).unwrap();
        let pixels = scene.pixels();
        let file = pgm(scenes::WIDTH, scenes::HEIGHT, |x, y| {
            pixels[y * scenes::WIDTH + x]
        });
        fs::write(folder.join("a.pgm"), file).unwrap();
        let json = out(&run(&folder, &["--format", "json", "a.pgm"]));
        let output = run(&folder, &["--why", "--quiet", "a.pgm"]);
        let line = format!("a.pgm: why: {}{said}\n", counted(told(&json).unwrap()));
        assert_eq!((status(&output), error(&output)), (0, line), "{name}");
        let list = run(&folder, &["a.pgm"]);
        assert_eq!((out(&output), error(&list)), (out(&list), String::new()));
        // The same words stand in the manifest.
        run(&folder, &["--why", "--quiet", "--out", "lists", "a.pgm"]);
        let manifest = fs::read_to_string(folder.join("lists/run.json")).unwrap();
        let why = format!("\"why\":\"{}{said}\",", counted(told(&json).unwrap()));
        assert!(manifest.contains(&why), "{manifest}");
    }
    // One that is refused, and one that is no picture: what is wrong stands before.
    fs::write(folder.join("b.frame"), refused()).unwrap();
    fs::write(folder.join("c.pgm"), "P5").unwrap();
    let none = "there is no list, so no candidate is counted: all six are 0";
    let output = run(&folder, &["--why", "--quiet", "b.frame", "c.pgm"]);
    let lines = format!(
        "b.frame: refused 5: the ray radius is over 7\nb.frame: why: {none}\n\
         c.pgm: damaged opening: no width\nc.pgm: why: {none}\n"
    );
    assert_eq!((status(&output), error(&output)), (1, lines));
    // Settings that nothing was measured with, and one that leaves nothing.
    fs::write(folder.join("a.frame"), document_frame().bytes()).unwrap();
    let output = run(&folder, &["--why", "a.frame"]);
    let others = "what counts say together is known for the default settings and those of the existing sites alone, and these are others";
    let line = format!(
        "a.frame: why: {}{others}{kept}\n",
        counted([0, 0, 0, 0, 0, 1])
    );
    assert_eq!(error(&output), line);
    fs::write(folder.join("board.pgm"), board()).unwrap();
    let output = run(&folder, &["--why", "--threshold-rel", "1", "board.pgm"]);
    let full = "; a threshold of 1 leaves nothing above the floor, whatever the picture shows\n";
    assert!(error(&output).ends_with(full), "{}", error(&output));
}

/// A PNG of palette colours taken apart: its width, and the colour of each pixel.
fn colours(png: &[u8]) -> (usize, Vec<[u8; 3]>) {
    assert_eq!(png[..8], *b"\x89PNG\r\n\x1a\n");
    let (mut chunks, mut rest) = (BTreeMap::new(), &png[8..]);
    while let Some((length, behind)) = rest.split_first_chunk::<4>() {
        let length = u32::from_be_bytes(*length) as usize;
        chunks.insert(behind[..4].to_vec(), behind[4..4 + length].to_vec());
        rest = &behind[4 + length + 4..];
    }
    let (head, stream) = (&chunks[&b"IHDR"[..]], &chunks[&b"IDAT"[..]]);
    let width = u32::from_be_bytes(head[..4].try_into().unwrap()) as usize;
    let height = u32::from_be_bytes(head[4..8].try_into().unwrap()) as usize;
    assert_eq!(head[8..], [8, 3, 0, 0, 0], "eight bits, a palette");
    let palette = chunks[&b"PLTE"[..]].chunks_exact(3);
    let palette: Vec<[u8; 3]> = palette.map(|colour| colour.try_into().unwrap()).collect();
    let (mut rows, mut at, mut last) = (Vec::<u8>::new(), 2, false);
    while !last {
        let length = u16::from_le_bytes([stream[at + 1], stream[at + 2]]) as usize;
        last = stream[at] == 1;
        rows.extend(&stream[at + 5..at + 5 + length]);
        at += 5 + length;
    }
    assert_eq!(rows.len(), height * (width + 1));
    let rows = rows.chunks(width + 1).flat_map(|row| row[1..].to_vec());
    (width, rows.map(|place| palette[place as usize]).collect())
}

/// Of a candidate that is not above the floor there is no mark; the others have these, in the order of the verdicts.
const MARKS: [[u8; 3]; 5] = [
    [86, 180, 233],
    [230, 159, 0],
    [240, 228, 66],
    [213, 94, 0],
    [0, 158, 115],
];
const WHITE: [u8; 3] = [255; 3];

fn is_grey(colour: [u8; 3]) -> bool {
    (56..=200).contains(&colour[0]) && colour == [colour[0]; 3]
}

/// Frames of one candidate: the middle of its pixel has the verdict's colour, and the legend below has all marks and words.
#[test]
fn known_pixels() {
    let folder = folder("pixels");
    let (scale, line) = (114, 20);
    for (verdict, frame) in each_verdict().into_iter().enumerate() {
        fs::write(folder.join("a.frame"), frame.bytes()).unwrap();
        let output = run(&folder, &["--beside", "--why", "--draw", "svg", "a.frame"]);
        assert_eq!(status(&output), 0, "{}", error(&output));
        let (width, pixels) = colours(&fs::read(folder.join("a.frame.why.png")).unwrap());
        let at = |x: usize, y: usize| pixels[y * width + x];
        let height = pixels.len() / width;
        assert_eq!((width, height), (7 * scale, 7 * scale + 8 * line + 16));
        let middle = at(3 * scale + scale / 2, 3 * scale + scale / 2);
        match verdict {
            0 => assert!(is_grey(middle)),
            _ => assert_eq!(middle, MARKS[verdict - 1]),
        }
        // The line about the one candidate, and the picture, dimmed, beyond it and in its corners.
        for (x, y) in [
            (3 * scale - 1, 3 * scale),
            (4 * scale, 3 * scale),
            (3 * scale, 3 * scale - 1),
            (3 * scale, 4 * scale),
        ] {
            assert_eq!(at(x, y), WHITE);
        }
        let dimmed = |pixel: u8| 56 + usize::from(pixel) * 144 / 255;
        for (x, y) in [(0, 0), (6, 0), (0, 6), (6, 6), (2, 3)] {
            let grey = dimmed(frame.pixels[y * 7 + x]) as u8;
            assert_eq!(at(x * scale + 5, y * scale + 5), [grey; 3]);
        }
        // Pixels of that colour are in the picture only for this verdict; in the legend all are, each in a line of its own.
        let has = |colour: [u8; 3], from: usize, until: usize| {
            pixels[from * width..until * width].contains(&colour)
        };
        for (other, colour) in MARKS.into_iter().enumerate() {
            assert_eq!(has(colour, 0, 7 * scale), other + 1 == verdict);
            let top = 7 * scale + 8 + (6 - other) * line;
            assert!(has(colour, top, top + line) && has(WHITE, top, top + line));
            assert_eq!(at(28, top + line / 2), colour);
        }
    }
}

/// The dots of the words in a line of the legend, to hold two of them against each other.
fn legend_line(width: usize, pixels: &[[u8; 3]], line: usize) -> Vec<bool> {
    let height = pixels.len() / width;
    let top = height - 8 - (8 - line) * 20;
    let until = 560.min(width);
    let rows = (top..top + 20).flat_map(|y| (60..560).map(move |x| (x, y)));
    rows.map(|(x, y)| x < until && pixels[y * width + x] == WHITE)
        .collect()
}

/// Frames small and large, of every kind, with windows that overlap too.
fn drawn_frames() -> Vec<Frame> {
    let random = &mut judge::random::Random::new(5, 5);
    let noise = Frame {
        width: 90,
        height: 60,
        pixels: judge::pictures::picture(random, Kind::Random, 90, 60),
        suppression: 0,
        threshold: 0x3DCC_CCCD,
        ..document_frame()
    };
    let large = (0..30).map(|index| judge::made(73, index, Sizes::up_to(120)).frame);
    let small = (0..60).map(|index| judge::made(74, index, Sizes::within(1_000)).frame);
    let all = std::iter::once(noise).chain(large).chain(small);
    all.filter(|frame| six(&frame.bytes()) != [0; 6]).collect()
}

/// Pixels that are drawn so large have their marks to themselves.
const APART: usize = 24;

/// The middle of each peak's pixel has its verdict's colour, by the judge's verdict on that place, whatever marks lie about it; where
/// pixels are drawn large so has every candidate's, and those that are not above the floor have no mark.
#[test]
fn all_marks() {
    let folder = folder("marks");
    let (mut apart, mut seen) = (0, [0; 6]);
    for frame in drawn_frames() {
        fs::write(folder.join("a.frame"), frame.bytes()).unwrap();
        let output = run(&folder, &["--beside", "--why", "--draw", "png", "a.frame"]);
        assert_eq!(status(&output), 0, "{}", error(&output));
        let (width, pixels) = colours(&fs::read(folder.join("a.frame.why.png")).unwrap());
        let map = judge::mapped(&frame);
        let rules = judge::Rules::new(&frame, &map.working, &map.response);
        let scale = (800 / map.w.max(map.h)).max(1);
        apart += usize::from(scale >= APART);
        for (x, y) in judge::candidates(&frame) {
            let middle = |at: usize| at * scale + scale / 2;
            let colour = pixels[middle(y) * width + middle(x)];
            let verdict = rules.verdict(x, y);
            seen[verdict] += 1;
            match verdict {
                2.. => assert_eq!(colour, MARKS[verdict - 1]),
                1 if scale >= APART => assert_eq!(colour, MARKS[0]),
                0 if scale >= APART => assert!(is_grey(colour)),
                _ => {}
            }
        }
    }
    assert!(
        apart > 10 && seen.iter().all(|n| *n > 0),
        "{apart} {seen:?}"
    );
}

/// The legend has the numbers: the same number has the same dots, another one has others.
#[test]
fn numbers_of_the_legend() {
    let folder = folder("legend");
    let mut legends = Vec::new();
    for frame in drawn_frames() {
        fs::write(folder.join("a.frame"), frame.bytes()).unwrap();
        run(&folder, &["--beside", "--why", "--draw", "png", "a.frame"]);
        let (width, pixels) = colours(&fs::read(folder.join("a.frame.why.png")).unwrap());
        let lines = [7, 6, 5, 4, 3, 2].map(|line| legend_line(width, &pixels, line));
        legends.push((six(&frame.bytes()), lines));
    }
    let (mut same, mut other) = (0, 0);
    for (counts, lines) in &legends {
        for (other_counts, other_lines) in &legends {
            for at in 0..6 {
                let equal = counts[at] == other_counts[at];
                assert_eq!(lines[at] == other_lines[at], equal);
                same += usize::from(equal);
                other += usize::from(!equal);
            }
        }
    }
    assert!(same > 500 && other > 500, "{same} {other}");
}

/// An arch: each camera's six, words and marks are those of its frame alone; a refused one has zeros, and no drawing from before.
#[test]
fn an_arch() {
    let folder = folder("arch");
    let [_, beaten, _, flat, edge, kept] = each_verdict();
    let files = [
        ("d.frame", kept.bytes()),
        ("b.frame", edge.bytes()),
        ("a.frame", flat.bytes()),
        ("c.frame", beaten.bytes()),
    ];
    let names = files.each_ref().map(|(name, _)| *name);
    let write = |name: &str, content: &[u8]| fs::write(folder.join(name), content).unwrap();
    files
        .iter()
        .for_each(|(name, content)| write(name, content));
    let together: Vec<u8> = files
        .iter()
        .flat_map(|(_, content)| content.clone())
        .collect();
    write("all", &together);
    let words = [
        "arch", "--quiet", "--why", "--out", "lists", "--draw", "png",
    ];
    for down in [false, true] {
        if down {
            write("b.frame", &refused());
        }
        let output = run(&folder, &[&words[..], &names].concat());
        assert_eq!(
            (status(&output), out(&output).as_str()),
            (i32::from(down), "")
        );
        let manifest = fs::read_to_string(folder.join("lists/run.json")).unwrap();
        let rows: Vec<&str> = manifest
            .lines()
            .filter(|line| line.starts_with("{\"name\""))
            .collect();
        assert_eq!(rows.len(), 4);
        for (at, (name, content)) in files.iter().enumerate() {
            let (camera, gone) = (at + 1, down && *name == "b.frame");
            let counts = if gone { [0; 6] } else { six(content) };
            assert_eq!(told(rows[at]), Some(counts), "{}", rows[at]);
            assert!(rows[at].contains("\"why\":\""));
            assert!(error(&output).contains(&format!("camera {camera}: {name}: why: ")));
            let drawing = fs::read(folder.join(format!("lists/{name}.{camera}.why.png")));
            assert_eq!(drawing.is_err(), gone);
            if let Ok(drawing) = drawing {
                let alone = run(
                    &folder,
                    &["--quiet", "--why", "--out", "alone", "--draw", "svg", name],
                );
                assert_eq!(status(&alone), 0);
                assert!(drawing == fs::read(folder.join(format!("alone/{name}.why.png"))).unwrap());
            }
        }
    }
    write("b.frame", &edge.bytes());
    for words in [&["--cameras", "4", "all"][..], &names] {
        let call = |format| {
            run(
                &folder,
                &[&["arch", "--quiet", "--why", "--format", format][..], words].concat(),
            )
        };
        let (json, csv) = (out(&call("json")), out(&call("csv")));
        for ((line, (_, content)), camera) in json.lines().zip(&files).zip(1..) {
            assert!(line.starts_with(&format!("{{\"camera\":{camera},")));
            assert_eq!(told(line), Some(six(content)));
        }
        let ends: Vec<&str> = csv
            .lines()
            .map(|line| line.rsplitn(7, ',').last().unwrap())
            .collect();
        assert_eq!(ends[0], "camera,file,answer,words,corner,x,y,strength");
        for ((line, (_, content)), camera) in csv.lines().skip(1).zip(&files).zip(1..) {
            let six = six(content).map(|n| format!(",{n}")).concat();
            assert!(
                line.starts_with(&format!("{camera},")) && line.ends_with(&six),
                "{line}"
            );
            assert_eq!(line.split(',').count(), 14);
        }
        assert_eq!((json.lines().count(), csv.lines().count()), (4, 5));
    }
    let nine = run(
        &folder,
        &[
            "arch",
            "--quiet",
            "--why",
            "--format",
            "json",
            "--cameras",
            "9",
            "all",
        ],
    );
    assert!(
        out(&nine).lines().all(|line| told(line) == Some([0; 6]))
            && out(&nine).lines().count() == 8
    );
}

/// Several folders: each has its drawings and its manifest; none from yesterday stays where a frame is refused today or gone.
#[test]
fn several_folders() {
    let folder = folder("several");
    for name in ["one", "two"] {
        fs::create_dir_all(folder.join(name)).unwrap();
        for frame in ["a.pgm", "b.pgm"] {
            fs::write(folder.join(name).join(frame), board()).unwrap();
        }
    }
    let words = [
        "--beside", "--quiet", "--why", "--draw", "png", "one", "two",
    ];
    let output = run(&folder, &words);
    assert_eq!(
        (status(&output), error(&output).matches(": why: ").count()),
        (0, 4)
    );
    let names = |name: &str| -> Vec<String> {
        let entries = fs::read_dir(folder.join(name)).unwrap();
        let mut names: Vec<String> = entries
            .map(|entry| entry.unwrap().file_name().into_string().unwrap())
            .collect();
        names.sort();
        names
    };
    let all = [
        "a.pgm",
        "a.pgm.corners",
        "a.pgm.png",
        "a.pgm.why.png",
        "b.pgm",
        "b.pgm.corners",
        "b.pgm.png",
        "b.pgm.why.png",
        "run.json",
    ];
    assert_eq!(
        (names("one"), names("two")),
        (
            all.map(String::from).to_vec(),
            all.map(String::from).to_vec()
        )
    );
    let manifest = fs::read_to_string(folder.join("two/run.json")).unwrap();
    assert!(manifest.contains("\"results\":[\"a.pgm.corners\",\"a.pgm.png\",\"a.pgm.why.png\"]"));
    fs::write(folder.join("one/a.pgm"), b"P5 9 9 255\n").unwrap();
    fs::remove_file(folder.join("two/b.pgm")).unwrap();
    let output = run(&folder, &words);
    assert_eq!(status(&output), 1);
    assert_eq!(
        names("one"),
        [
            "a.pgm",
            "b.pgm",
            "b.pgm.corners",
            "b.pgm.png",
            "b.pgm.why.png",
            "run.json"
        ]
    );
    assert_eq!(
        names("two"),
        [
            "a.pgm",
            "a.pgm.corners",
            "a.pgm.png",
            "a.pgm.why.png",
            "run.json"
        ]
    );
    // Without --why the next run takes the marks away, too.
    let output = run(
        &folder,
        &["--beside", "--quiet", "--draw", "png", "one", "two"],
    );
    assert_eq!(
        (status(&output), error(&output).matches(": why: ").count()),
        (1, 0)
    );
    assert_eq!(
        names("two"),
        ["a.pgm", "a.pgm.corners", "a.pgm.png", "run.json"]
    );
    // A file of the user's in the place of the marks stays, and its frame has no list.
    fs::write(folder.join("two/a.pgm.why.png"), "mine").unwrap();
    let output = run(
        &folder,
        &["--beside", "--quiet", "--why", "--draw", "png", "two"],
    );
    assert_eq!(status(&output), 1);
    assert!(error(&output).contains("a.pgm.why.png is there and not of an earlier run: it stays"));
    assert_eq!(names("two"), ["a.pgm", "a.pgm.why.png", "run.json"]);
    assert_eq!(fs::read(folder.join("two/a.pgm.why.png")).unwrap(), b"mine");
    // Two results of one name are told before anything is read.
    fs::write(folder.join("b.pgm"), board()).unwrap();
    fs::write(folder.join("b.pgm.why"), board()).unwrap();
    let words = [
        "--out",
        "lists",
        "--why",
        "--draw",
        "png",
        "b.pgm",
        "b.pgm.why",
    ];
    let output = run(&folder, &words);
    assert_eq!(status(&output), 2);
    assert!(error(&output).contains("b.pgm and b.pgm.why would both write lists/b.pgm.why.png"));
}
