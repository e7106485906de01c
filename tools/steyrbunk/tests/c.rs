//! The headers and the C example: compiled, linked with the archives that they need, and run.

mod common;

use std::fmt::Write as _;
use std::io::Write as _;
use std::path::{Path, PathBuf};
use std::process::{Command, Output, Stdio};
use std::{env, fs};

use common::{frame, image};
use judge::{Frame, Kind};
use steyrbunk::{arch, limits, record, Finder, PeakFit, Refusal, Settings, Verdict, Verdicts};

const FINDER: &str = env!("STEYRBUNK_ARCHIVE");
const VERDICT: &str = env!("STEYRBUNK_VERDICT_ARCHIVE");

/// The example as a program. It finds corners, so the finder's archive is all that it needs.
fn compiled(name: &str) -> Option<PathBuf> {
    built(name, "examples/corners.c", &[FINDER])
}

/// A C file as a program, with the sanitizers if this compiler has them; nothing without a compiler.
fn built(name: &str, file: &str, archives: &[&str]) -> Option<PathBuf> {
    let package = Path::new(env!("CARGO_MANIFEST_DIR"));
    let program = Path::new(env!("CARGO_TARGET_TMPDIR")).join(name);
    let with = |flags: &[&str]| {
        let mut cc = Command::new(env::var("CC").unwrap_or("cc".to_string()));
        cc.args([
            "-std=c99",
            "-Wall",
            "-Wextra",
            "-Wpedantic",
            "-Werror",
            "-O1",
        ])
        .args(flags);
        cc.arg("-I")
            .arg(package.join("include"))
            .arg(package.join(file));
        cc.args(archives)
            .args(["-lm", "-o"])
            .arg(&program)
            .output()
            .ok()
    };
    let sanitized = with(&["-fsanitize=address,undefined", "-fno-sanitize-recover=all"])?;
    if !sanitized.status.success() {
        let plain = with(&[])?;
        assert!(
            plain.status.success(),
            "{}",
            String::from_utf8_lossy(&plain.stderr)
        );
    }
    Some(program)
}

fn run(program: &Path, input: &[u8]) -> Output {
    let mut child = Command::new(program)
        .stdin(Stdio::piped())
        .stdout(Stdio::piped())
        .stderr(Stdio::piped())
        .spawn()
        .expect("the program starts");
    child
        .stdin
        .take()
        .expect("piped")
        .write_all(input)
        .expect("it reads");
    child.wait_with_output().expect("it ends")
}

fn pgm(frame: &Frame) -> Vec<u8> {
    let head = format!("P5\n{} {}\n255\n", frame.width, frame.height);
    [head.as_bytes(), &frame.pixels].concat()
}

#[test]
fn the_example() {
    let Some(program) = compiled("corners") else {
        eprintln!("no C compiler: skipped");
        return;
    };
    let board = frame(Kind::Board, 200, 150);
    let found = Finder::new()
        .find(image(&board), &Settings::default())
        .expect("accepted");
    assert!(!found.corners.is_empty());
    let output = run(&program, &pgm(&board));
    let text = String::from_utf8(output.stdout).expect("text");
    let mut lines = text.lines();
    assert_eq!(
        lines.next(),
        Some(format!("{} corners", found.corners.len()).as_str())
    );
    for (line, corner) in lines.by_ref().zip(&found.corners) {
        let bits: Vec<u32> = line
            .split(' ')
            .map(|word| word.parse::<f32>().expect("a float").to_bits())
            .collect();
        assert_eq!(bits, corner.bits());
    }
    assert_eq!(lines.next(), None);
    assert_eq!(output.stderr, counted(found.verdicts.expect("searched")));
    assert!(output.status.success());

    let mut cut = pgm(&board);
    cut.pop();
    let output = run(&program, &cut);
    assert_eq!(
        (output.stdout.as_slice(), output.stderr.as_slice()),
        (
            &b""[..],
            &b"refused 3: the number of pixels is not width times height\n"[..]
        )
    );
    // An empty panel, and a picture that is too small to be one.
    let grey = |width, height| run(&program, &pgm(&frame(Kind::Flat, width, height)));
    assert_eq!(grey(12, 12).stdout, b"0 corners\n");
    for output in [grey(11, 12), grey(0, 0)] {
        let words = format!("{}\n", Refusal::FrameTooSmall);
        assert!(words.starts_with("refused 15: the frame is too small to judge"));
        assert_eq!(output.stderr, words.as_bytes());
        assert_eq!((output.stdout.len(), output.status.code()), (0, Some(1)));
    }
    let commented = pgm(&board);
    let commented = [b"P5 # grey\n# by a camera", &commented[2..]].concat();
    assert_eq!(
        run(&program, &commented).stdout,
        run(&program, &pgm(&board)).stdout
    );
    let output = run(&program, b"P5 4097 1 255\n");
    assert!(output.stderr.starts_with(b"refused 2: ") && output.status.code() == Some(1));
    for damaged in [
        &b""[..],
        b"P6 1 1 255\n123",
        b"P5",
        b"P5 7 x",
        b"P5 1 1 256\n12",
        b"P5 1 1 255",
    ] {
        let output = run(&program, damaged);
        assert_eq!(
            (output.status.code(), output.stdout.len()),
            (Some(2), 0),
            "{damaged:?}"
        );
    }
    // More corners than the example has room for: it says that its list is cut.
    let (width, height) = (1024, 1024);
    let shade = |at: usize| [40, 190][(at % width / 5 + at / width / 5) % 2];
    let mut many = format!("P5 {width} {height} 255\n").into_bytes();
    many.extend((0..width * height).map(shade));
    let output = run(&program, &many);
    let text = String::from_utf8(output.stdout).expect("text");
    let first: usize = text
        .split(' ')
        .next()
        .expect("a count")
        .parse()
        .expect("a number");
    assert!(first > 4096 && text.lines().count() == 1 + 4096, "{first}");
    let mut lines = output.stderr.split_inclusive(|byte| *byte == b'\n');
    let cut = lines.next().expect("a line");
    assert_eq!(cut, b"the list is cut: there is room for 4096 corners\n");
    // All that were found are kept, though the list has no room for them.
    let kept = format!("{first} kept\n");
    assert_eq!(lines.next_back(), Some(kept.as_bytes()));
}

/// What the example says of the candidates.
fn counted(verdicts: Verdicts) -> Vec<u8> {
    let line = |verdict: Verdict| format!("{} {}\n", verdicts.of(verdict), verdict.words());
    Verdict::ALL.map(line).concat().into_bytes()
}

/// Whether a program that calls a function links with these archives; nothing without a compiler.
fn links(name: &str, archives: &[&str]) -> Option<bool> {
    let file = Path::new(env!("CARGO_TARGET_TMPDIR")).join(format!("{name}.{}.c", archives.len()));
    let text = format!("void {name}(void); int main(void) {{ {name}(); return 0; }}\n");
    fs::write(&file, text).expect("written");
    let mut cc = Command::new(env::var("CC").unwrap_or("cc".to_string()));
    let cc = cc.arg(&file).args(archives);
    let output = cc.args(["-lm", "-o"]).arg(file.with_extension("out"));
    output.output().ok().map(|output| output.status.success())
}

/// What was built for a function that told less must not link, lest it be written through a pointer that it never passed.
#[test]
fn old_names_do_not_link() {
    if links("steyrbunk_corners", &[FINDER]).is_none() {
        eprintln!("no C compiler: skipped");
        return;
    }
    for (old, new) in [
        ("find", "corners"),
        ("peaks", "detect_peaks"),
        ("arch", "run_arch"),
    ] {
        let linked = |name| links(&format!("steyrbunk_{name}"), &[FINDER]);
        assert_eq!(linked(new), Some(true), "{new}");
        assert_eq!(linked(old), Some(false), "{old}");
    }
}

/// In the finder's archive it would be a second caller of the rules, which are then not compiled into the scan.
#[test]
fn the_verdict_has_an_archive_of_its_own() {
    let linked = |archives: &[&str]| links("steyrbunk_verdict", archives);
    if linked(&[]).is_none() {
        eprintln!("no C compiler: skipped");
        return;
    }
    assert_eq!(linked(&[FINDER]), Some(false));
    assert_eq!(linked(&[FINDER, VERDICT]), Some(true));
}

/// Every answer through the header's easy calls, over workspaces of every length about the right one, and the verdict on each pixel.
#[test]
fn the_easy_calls() {
    let Some(program) = built("easy", "tests/easy.c", &[FINDER, VERDICT]) else {
        eprintln!("no C compiler: skipped");
        return;
    };
    let output = run(&program, b"");
    let text = String::from_utf8_lossy(&output.stdout).into_owned();
    assert!(
        output.status.success(),
        "{text}{}",
        String::from_utf8_lossy(&output.stderr)
    );
    assert_eq!(text, "all answers as they should be\n");
}

/// C and Python have the wrapper's words for every answer that the library gives; 10 is the program's alone.
#[test]
fn the_words() {
    let (header, python) = (
        read("include/steyrbunk_easy.h"),
        read("../../python/steyrbunk.py"),
    );
    for number in (2..=21).filter(|number| *number != 10) {
        let refusal = Refusal::from_number(number);
        assert_ne!(refusal, Refusal::Unknown(number));
        let sentence = refusal.sentence();
        let (in_c, in_python) = (
            format!("case {number}: return \"{sentence}\";"),
            format!("    {number}: \"{sentence}\","),
        );
        assert!(header.contains(&in_c), "{in_c}");
        assert!(python.contains(&in_python), "{in_python}");
    }
}

/// C and Python have the six in the wrapper's order, by its names, and C by its words.
#[test]
fn the_verdicts() {
    let (header, easy, python) = (
        read("include/steyrbunk.h"),
        read("include/steyrbunk_easy.h"),
        read("../../python/steyrbunk.py"),
    );
    for verdict in Verdict::ALL {
        let (name, number) = (verdict.name().to_uppercase(), verdict.number());
        let place = format!("    STEYRBUNK_{name} = {number},");
        assert!(header.contains(&place), "{place}");
        let words = format!("case STEYRBUNK_{name}: return \"{}\";", verdict.words());
        assert!(easy.contains(&words), "{words}");
    }
    let all = format!("    STEYRBUNK_VERDICTS = {} ", Verdict::ALL.len());
    assert!(header.contains(&all), "{all}");
    let names = Verdict::ALL.map(Verdict::name).join(" ");
    let fields = format!("namedtuple(\"Verdicts\", \"{names}\"");
    assert!(python.contains(&fields), "{fields}");
    let version = format!("\n__version__ = \"{}\"\n", env!("CARGO_PKG_VERSION"));
    assert!(python.contains(&version), "{version}");
}

/// Python over a shared library that the documented line builds.
#[test]
fn python() {
    let (package, folder) = (
        Path::new(env!("CARGO_MANIFEST_DIR")),
        Path::new(env!("CARGO_TARGET_TMPDIR")),
    );
    let library = folder.join("libsteyrbunk.so");
    let command = package.join("../target/release/steyrbunk");
    let linked = Command::new("cc")
        .args(["-shared", "-o"])
        .arg(&library)
        .args(["-Wl,--whole-archive", FINDER, "-Wl,--no-whole-archive"])
        .output();
    let linked = linked.expect("a C compiler");
    assert!(
        linked.status.success(),
        "{}",
        String::from_utf8_lossy(&linked.stderr)
    );
    assert!(
        command.exists(),
        "build the command first: cargo build --offline --release -p fitters"
    );
    let output = Command::new("python3")
        .arg(package.join("../../python/test_steyrbunk.py"))
        .arg(&command)
        .arg(folder)
        .env("STEYRBUNK_SO", &library)
        .output();
    let output = output.expect("python3");
    let (text, error) = (
        String::from_utf8_lossy(&output.stdout),
        String::from_utf8_lossy(&output.stderr),
    );
    assert!(
        output.status.success() && text.ends_with("checks pass\n"),
        "{text}{error}"
    );
}

fn read(name: &str) -> String {
    let package = Path::new(env!("CARGO_MANIFEST_DIR"));
    fs::read_to_string(package.join(name)).expect("it is there")
}

/// Name, order and type of every argument are the same in the headers and in the Rust declarations.
#[test]
fn the_headers_and_the_declarations() {
    let (header, raw) = (read("include/steyrbunk.h"), read("src/raw.rs"));
    for name in [
        "corners",
        "response",
        "detect_peaks",
        "run_arch",
        "write_record",
        "read_record",
    ] {
        let name = format!("steyrbunk_{name}");
        assert_eq!(in_c(&header, "uint32_t ", &name), in_rust(&raw, &name));
    }
    for name in ["steyrbunk_sqrt", "steyrbunk_ln"] {
        assert_eq!(in_c(&header, "float ", name), in_rust(&raw, name));
    }
    let (header, name) = (read("include/steyrbunk_verdict.h"), "steyrbunk_verdict");
    assert_eq!(in_c(&header, "uint32_t ", name), in_rust(&raw, name));
}

/// The header's limits and defaults are Rust's.
#[test]
fn the_header_and_the_limits() {
    let header = read("include/steyrbunk.h");
    let defined = |name: &str| {
        let value = header.split_once(&format!("#define STEYRBUNK_{name} "));
        let value = value.expect("defined").1.split_whitespace().next();
        value.expect("a value").to_string()
    };
    let Settings {
        ray_radius,
        image_upsample,
        response_blur_radius,
        peak_fit,
        threshold_rel,
        nms_radius,
        min_cluster_size,
    } = Settings::default();
    for (name, value) in [
        ("GREATEST_SIDE", limits::SIDE as u32),
        ("GREATEST_WORKING_SIDE", limits::WORKING_SIDE as u32),
        ("GREATEST_WORKING", limits::WORKING as u32),
        ("GREATEST_RAY_RADIUS", limits::RAY),
        ("GREATEST_BLUR_RADIUS", limits::BLUR),
        ("GREATEST_NMS_RADIUS", limits::SUPPRESSION),
        ("GREATEST_RECORD_CORNERS", limits::RECORD_CORNERS as u32),
        ("FEWEST_CAMERAS", arch::FEWEST as u32),
        ("MOST_CAMERAS", arch::MOST as u32),
        ("RAY_RADIUS", ray_radius),
        ("IMAGE_UPSAMPLE", image_upsample),
        ("RESPONSE_BLUR_RADIUS", response_blur_radius),
        ("NMS_RADIUS", nms_radius),
        ("MIN_CLUSTER_SIZE", min_cluster_size),
        (
            "EXISTING_SITES_NMS_RADIUS",
            Settings::existing_sites().nms_radius,
        ),
        ("PARABOLIC", PeakFit::Parabolic.number().into()),
        ("GAUSSIAN", PeakFit::Gaussian.number().into()),
    ] {
        assert_eq!(defined(name), format!("{value}u"), "{name}");
    }
    let bytes = format!(
        "STEYRBUNK_RECORD_BYTES(count) ((size_t){} + (size_t){} * (size_t)(count))",
        record::HEAD,
        record::CORNER
    );
    assert!(header.contains(&bytes), "{bytes}");
    assert_eq!(defined("THRESHOLD_REL"), format!("{threshold_rel}f"));
    assert_eq!(defined("PEAK_FIT"), "STEYRBUNK_GAUSSIAN");
    assert_eq!(peak_fit, PeakFit::Gaussian);
}

/// What stands between a function's name and the end of its arguments.
fn arguments<'a>(text: &'a str, before: &str, name: &str) -> &'a str {
    let open = format!("{before}{name}(");
    let from = text.find(&open).expect("declared") + open.len();
    let until = text[from..].find(if before.starts_with("pub") {
        ") ->"
    } else {
        ");"
    });
    &text[from..from + until.expect("closed")]
}

fn in_c(header: &str, result: &str, name: &str) -> String {
    let mut plain = String::new();
    let mut rest = arguments(header, result, name);
    while let Some((before, comment)) = rest.split_once("/*") {
        plain.push_str(before);
        rest = comment.split_once("*/").expect("a closed comment").1;
    }
    plain.push_str(rest);
    let mut list = String::new();
    for argument in plain.split(',') {
        let words = argument.split_whitespace().collect::<Vec<_>>().join(" ");
        let (kind, name) = words.rsplit_once(' ').expect("type and name");
        let array = name.split_once('[');
        let pointer = name.starts_with('*') || array.is_some();
        let name = array.map_or(name, |(name, _)| name).trim_start_matches('*');
        writeln!(
            list,
            "{name}: {}",
            if pointer {
                format!("{kind} *")
            } else {
                kind.to_string()
            }
        )
        .unwrap();
    }
    list
}

/// The arguments as they are written out, or as the macros for entries with buffers put them together.
fn declared(raw: &str, name: &str) -> String {
    let Some((until, call)) = raw.split_once(&format!("entry!({name}(")) else {
        return arguments(raw, "pub fn ", name).to_string();
    };
    let own = call.split_once("));").expect("closed").0;
    let (own_before, behind) = own.split_once(';').expect("two parts");
    let image = raw.split_once("entry!($name(").expect("the macro").1;
    let image = image.split_once("$(,").expect("what stands between").0;
    let before = match until.ends_with("image_") {
        true => format!("{image}, {own_before}"),
        false => own_before.to_string(),
    };
    arguments(raw, "pub fn ", "$name")
        .replace("$($before: $read,)*", &format!("{before},"))
        .replace("$($behind: $told),*", behind)
}

fn in_rust(raw: &str, name: &str) -> String {
    let mut list = String::new();
    let words = |kind: &str| match kind {
        "u8" => "uint8_t",
        "u16" => "uint16_t",
        "u32" => "uint32_t",
        "usize" => "size_t",
        "f32" => "float",
        "Camera" => "steyrbunk_camera",
        other => panic!("{other}"),
    };
    for argument in declared(raw, name).split(',') {
        let Some((name, kind)) = argument.trim().split_once(": ") else {
            continue;
        };
        let kind = match kind.split_once(' ') {
            None => words(kind).to_string(),
            Some(("*const", kind)) => format!("const {} *", words(kind)),
            Some(("*mut", kind)) => format!("{} *", words(kind)),
            _ => panic!("{kind}"),
        };
        writeln!(list, "{name}: {kind}").unwrap();
    }
    list
}
