//! The command under faults: killed, starved, shut out, and two at a time. After each, no list may be there that nothing owns.

#![cfg(unix)]

use std::collections::{BTreeMap, BTreeSet};
use std::ffi::OsStr;
use std::fs;
use std::io::Write;
use std::os::unix::ffi::OsStrExt;
use std::os::unix::fs::{chown, PermissionsExt};
use std::os::unix::process::CommandExt;
use std::path::{Path, PathBuf};
use std::process::{Child, Command, Output, Stdio};
use std::thread::sleep;
use std::time::{Duration, Instant};

/// Frames of a run that is killed.
const FRAMES: usize = 40;
/// Cameras of an arch.
const CAMERAS: usize = 8;
/// Points at which a run is killed, for each of the two signals.
const POINTS: usize = 225;

const BINARY: &str = env!("CARGO_BIN_EXE_steyrbunk");

/// An empty folder for one test; in memory where there is such a place, so that bringing things to the disk takes no time.
fn folder(name: &str) -> PathBuf {
    let memory = Path::new("/dev/shm");
    let place = if memory.is_dir() {
        memory
    } else {
        Path::new(env!("CARGO_TARGET_TMPDIR"))
    };
    let folder = place.join(format!("steyrbunk-fault-{name}"));
    let _ = fs::remove_dir_all(&folder);
    fs::create_dir_all(&folder).unwrap();
    folder
}

fn command(folder: &Path, words: &[&str]) -> Command {
    let mut command = Command::new(BINARY);
    command.current_dir(folder).args(words).stdin(Stdio::null());
    command
}

/// Runs the command; whatever it meets, it must not panic and must not hang.
fn run(folder: &Path, words: &[&str]) -> Output {
    ended(command(folder, words))
}

fn ended(mut command: Command) -> Output {
    let child = command
        .stdout(Stdio::piped())
        .stderr(Stdio::piped())
        .spawn()
        .unwrap();
    let output = within(child, Duration::from_secs(60));
    assert!(!error(&output).contains("panicked"), "{}", error(&output));
    output
}

fn within(mut child: Child, time: Duration) -> Output {
    let started = Instant::now();
    while child.try_wait().unwrap().is_none() {
        if started.elapsed() > time {
            child.kill().unwrap();
            panic!("hangs: {}", error(&child.wait_with_output().unwrap()));
        }
        sleep(Duration::from_millis(1));
    }
    child.wait_with_output().unwrap()
}

fn error(output: &Output) -> String {
    String::from_utf8_lossy(&output.stderr).into_owned()
}

fn status(output: &Output) -> i32 {
    output.status.code().unwrap_or(-1)
}

/// A board of 48 by 48 pixels; the day moves it, so that lists of two days differ.
fn board(day: usize, number: usize) -> Vec<u8> {
    board_of(48, day, number)
}

fn board_of(side: usize, day: usize, number: usize) -> Vec<u8> {
    let mut file = format!("P5 {side} {side} 255\n").into_bytes();
    let shade = |x: usize, y: usize| ((x + 3 * day + number % 3) / 12 + (y + number % 5) / 12) % 2;
    file.extend((0..side * side).map(|at| {
        if shade(at % side, at / side) == 1 {
            190
        } else {
            40
        }
    }));
    file
}

fn write_day(frames: &Path, day: usize) {
    fs::create_dir_all(frames.join("two")).unwrap();
    for number in 0..FRAMES {
        let sub = if number % 4 == 0 { "two/" } else { "" };
        fs::write(
            frames.join(format!("{sub}{number:03}.pgm")),
            board(day, number),
        )
        .unwrap();
    }
}

/// The cameras of an arch, large enough for a run to take its time: a picture each, and all their frame files in one.
fn write_arch(frames: &Path, day: usize) {
    fs::create_dir_all(frames).unwrap();
    let mut together = Vec::new();
    for camera in 1..=CAMERAS {
        let name = format!("{camera}.pgm");
        fs::write(frames.join(&name), board_of(160, day, camera)).unwrap();
        together.extend(run(frames, &["frame", &name]).stdout);
    }
    fs::write(frames.join("all"), together).unwrap();
}

/// The files of its cameras, not in order.
const ARCH: [&str; CAMERAS] = [
    "arch/3.pgm",
    "arch/1.pgm",
    "arch/8.pgm",
    "arch/4.pgm",
    "arch/6.pgm",
    "arch/2.pgm",
    "arch/7.pgm",
    "arch/5.pgm",
];

/// Files with their content, by their names from a folder.
type Files = BTreeMap<String, Vec<u8>>;

/// Every file below a folder.
fn all(folder: &Path) -> Files {
    let (mut found, mut folders) = (BTreeMap::new(), vec![folder.to_path_buf()]);
    while let Some(at) = folders.pop() {
        for entry in fs::read_dir(&at).unwrap() {
            let path = entry.unwrap().path();
            if path.is_dir() {
                folders.push(path);
            } else {
                let name = path
                    .strip_prefix(folder)
                    .unwrap()
                    .to_string_lossy()
                    .into_owned();
                found.insert(name, fs::read(&path).unwrap());
            }
        }
    }
    found
}

/// Names that only results have.
fn is_result(name: &str) -> bool {
    [".corners", ".csv", ".json", ".record", ".svg", ".png"]
        .iter()
        .any(|ending| name.ends_with(ending))
        && name != "run.json"
}

/// The results that a manifest or a plan names.
fn owned(text: &[u8]) -> BTreeSet<String> {
    let text = String::from_utf8(text.to_vec()).unwrap();
    text.split("\"results\":[")
        .skip(1)
        .flat_map(|rest| rest.split(']').next().unwrap().split(','))
        .filter(|name| !name.is_empty())
        .map(|name| name.trim_matches('"').to_string())
        .collect()
}

/// What a folder is allowed to look like, whenever the command was stopped: `days` are the whole lists of each day.
/// Tells whose day it is, where there is a manifest.
fn held(lists: &Path, days: &[&Files]) -> Option<usize> {
    let files = all(lists);
    let results: BTreeMap<_, _> = files.iter().filter(|(name, _)| is_result(name)).collect();
    match (files.get("run.json"), files.get("run.plan")) {
        (Some(manifest), _) => {
            let owned = owned(manifest);
            let there: BTreeSet<String> = results.keys().map(|name| name.to_string()).collect();
            assert_eq!(there, owned, "a manifest, and other lists than it names");
            // All of one day: the manifest's.
            let of_day = |day: &&Files| {
                results
                    .iter()
                    .all(|(name, list)| day.get(*name) == Some(*list))
            };
            let day = days.iter().position(of_day);
            assert!(day.is_some(), "lists of two runs");
            day
        }
        (None, Some(plan)) => {
            let owned = owned(plan);
            results
                .keys()
                .for_each(|name| assert!(owned.contains(*name), "{name} is owned by nothing"));
            None
        }
        (None, None) => {
            assert!(
                results.is_empty(),
                "lists, and neither manifest nor plan: {results:?}"
            );
            None
        }
    }
}

/// A call that is made again and again, with what it reads and leaves on each of two days.
struct Course {
    words: Vec<&'static str>,
    /// The folder of what it reads.
    from: &'static str,
    sources: [Files; 2],
    results: [Files; 2],
    /// How long it takes.
    usual: Duration,
}

impl Course {
    /// By runs that nothing disturbs.
    fn new(folder: &Path, words: &[&'static str], sources: [Files; 2]) -> Course {
        let words = words.to_vec();
        // A list, a drawing, and the marks.
        let asked = |word: &str| usize::from(words.contains(&word));
        let each = 1 + asked("--draw") + asked("--why");
        let (from, lists) = if words.contains(&"arch") {
            ("arch", CAMERAS)
        } else {
            ("frames", FRAMES)
        };
        let started = Instant::now();
        let results = [0, 1].map(|day| {
            let at = folder.join(format!("{}{day}", words.join(" ").replace('/', "-")));
            write_all(&at.join(from), &sources[day]);
            let output = run(&at, &words);
            assert_eq!(status(&output), 0, "{}", error(&output));
            let mut files = all(&at.join("lists"));
            files.retain(|name, _| is_result(name));
            assert_eq!(files.len(), each * lists);
            files
        });
        assert_ne!(results[0], results[1]);
        Course {
            words,
            from,
            sources,
            results,
            usual: started.elapsed() / 2,
        }
    }
}

fn write_all(folder: &Path, files: &Files) {
    for (name, content) in files {
        let path = folder.join(name);
        fs::create_dir_all(path.parent().unwrap()).unwrap();
        fs::write(path, content).unwrap();
    }
}

/// Lists and drawings of frames, their records, and the lists of these; lists and drawings of an arch by the names of its
/// files, and records of one in one file; lists, drawings and marks of frames.
fn courses(folder: &Path) -> [Course; KINDS] {
    let of_days = |write: fn(&Path, usize), name: &str| {
        [0, 1].map(|day| {
            let frames = folder.join(format!("{name}{day}"));
            write(&frames, day);
            all(&frames)
        })
    };
    let (days, arches) = (of_days(write_day, "days"), of_days(write_arch, "arches"));
    let lists = ["--out", "lists", "--draw", "svg", "--quiet", "frames"];
    let records = ["--out", "lists", "--format", "record", "--quiet", "frames"];
    let read = [
        "read", "--out", "lists", "--format", "csv", "--quiet", "frames",
    ];
    let why = [
        "--out", "lists", "--draw", "svg", "--why", "--quiet", "frames",
    ];
    let lists = Course::new(folder, &lists, days.clone());
    let records = Course::new(folder, &records, days.clone());
    let why = Course::new(folder, &why, days);
    let read = Course::new(folder, &read, records.results.clone());
    let by_name = [
        &["arch", "--out", "lists", "--draw", "svg", "--quiet"][..],
        &ARCH,
    ]
    .concat();
    let together = [
        "arch",
        "--out",
        "lists",
        "--format",
        "record",
        "--quiet",
        "--cameras",
        "8",
        "arch/all",
    ];
    let by_name = Course::new(folder, &by_name, arches.clone());
    let together = Course::new(folder, &together, arches);
    [lists, records, read, by_name, together, why]
}

/// Courses, which are killed in turn.
const KINDS: usize = 6;

/// Killed at many points of a run over yesterday's results: by SIGKILL and by SIGINT.
#[test]
fn killed_anywhere() {
    let folder = folder("killed");
    let mut courses = courses(&folder);
    let at = folder.join("run");
    let lists = at.join("lists");
    let (mut cut, mut before, mut between, mut after) = ([0; KINDS], 0, [0; KINDS], 0);
    for point in 0..2 * POINTS {
        let kind = point / 2 % KINDS;
        let Course {
            words,
            from,
            sources,
            results,
            usual,
        } = &mut courses[kind];
        let days = [&results[0], &results[1]];
        // Yesterday's run, whole; then today's, killed on its way.
        write_all(&at.join(*from), &sources[0]);
        assert_eq!(status(&run(&at, words)), 0);
        assert_eq!(held(&lists, &days[..1]), Some(0));
        write_all(&at.join(*from), &sources[1]);
        let mut child = command(&at, words).stderr(Stdio::null()).spawn().unwrap();
        sleep(usual.mul_f64((point / 2) as f64 / POINTS as f64));
        if point % 2 == 0 {
            child.kill().unwrap();
        } else {
            let interrupted = Command::new("kill")
                .args(["-INT", &child.id().to_string()])
                .stderr(Stdio::null())
                .status();
            assert!(interrupted.is_ok());
        }
        let ended = child.wait().unwrap();
        cut[kind] += usize::from(ended.code().is_none());
        match held(&lists, &days) {
            Some(0) => before += 1,
            Some(_) => after += 1,
            None => between[kind] += 1,
        }
        // The next run clears up.
        let started = Instant::now();
        assert_eq!(status(&run(&at, words)), 0);
        *usual = usual.mul_f64(0.8) + started.elapsed().mul_f64(0.2);
        assert_eq!(held(&lists, &days[1..]), Some(0));
        let names: Vec<String> = all(&lists)
            .into_keys()
            .filter(|name| !is_result(name))
            .collect();
        assert_eq!(names, ["run.json"]);
    }
    println!(
        "{} points: runs cut off {cut:?} (lists, records, records read, arch by name, arch in one file, marks); yesterday's \
         manifest still there {before} times, none {between:?} times, today's {after} times",
        2 * POINTS
    );
    for kind in 0..KINDS {
        assert!(
            cut[kind] > POINTS / 2 / KINDS && between[kind] > POINTS / 4 / KINDS,
            "the points do not lie inside the runs: {cut:?}, {between:?}"
        );
    }
}

/// A file system that fills up on the way: small ones, in a name space of their own.
#[test]
fn a_full_disk() {
    let folder = folder("full");
    write_day(&folder.join("frames"), 1);
    write_arch(&folder.join("arch"), 1);
    fs::create_dir_all(folder.join("lists")).unwrap();
    let kept = ["--out", "kept", "--quiet", "--format", "record", "frames"];
    assert_eq!(status(&run(&folder, &kept)), 0);
    let by_name = format!("arch {}", ARCH.join(" "));
    let marks = "--draw svg --why frames/two";
    let some_marks = "--draw svg --why frames/two/000.pgm frames/two/004.pgm";
    let calls = [
        ("frames/two", "--draw svg frames", 2 * FRAMES),
        (
            "--format record frames/two",
            "--format record --draw svg frames",
            2 * FRAMES,
        ),
        (&by_name, &format!("{by_name} --draw svg"), 2 * CAMERAS),
        (some_marks, marks, 3 * FRAMES / 4),
        (
            "--format record frames/two",
            "read --format json kept",
            FRAMES,
        ),
        (
            "arch --cameras 2 arch/all",
            "arch --cameras 8 --format record --draw svg arch/all",
            2 * CAMERAS,
        ),
    ];
    let (mut starved, mut sizes) = ([0; 6], 0);
    for kilobytes in (8..=600).step_by(8) {
        sizes += 1;
        let kind = kilobytes / 8 % calls.len();
        let (yesterday, today, results_of_all) = calls[kind];
        // Drawings of marks are larger.
        let (first, kilobytes) = match today == marks {
            true => (2_048.max(16 * kilobytes), 16 * kilobytes),
            false => (1_024, kilobytes),
        };
        // Yesterday's lists stand on the disk; then it is made smaller than today's lists are.
        let script = format!(
            "mount -t tmpfs -o size={first}k tmpfs lists && '{BINARY}' {yesterday} --quiet --out lists >/dev/null 2>&1 \
             && mount -o remount,size={kilobytes}k lists; '{BINARY}' {today} --quiet --out lists 2>message; \
             echo status $?; cd lists; find . -type f | sort; echo ---; cat run.json 2>/dev/null; echo ---; cat run.plan 2>/dev/null; \
             cd ..; mount -o remount,size=16m lists; '{BINARY}' {today} --quiet --out lists; echo again $?; ls lists | grep -c part"
        );
        let output = Command::new("unshare")
            .args(["-r", "-m", "sh", "-c", &script])
            .current_dir(&folder)
            .output()
            .unwrap();
        let text = String::from_utf8_lossy(&output.stdout).into_owned();
        assert!(
            text.contains("again 0\n0\n"),
            "{kilobytes} kB: {text} {}",
            error(&output)
        );
        let message = fs::read_to_string(folder.join("message")).unwrap();
        assert!(!message.contains("panicked"), "{message}");
        let mut parts = text.split("---\n");
        let first = parts.next().unwrap();
        let (manifest, plan) = (
            owned(parts.next().unwrap().as_bytes()),
            owned(parts.next().unwrap().as_bytes()),
        );
        let results: Vec<&str> = first
            .lines()
            .filter_map(|line| line.strip_prefix("./"))
            .filter(|name| is_result(name))
            .collect();
        if first.contains("status 0\n") {
            assert_eq!(results.len(), results_of_all, "{kilobytes} kB");
        } else {
            starved[kind] += 1;
            assert!(
                message.contains("No space left") || message.contains("os error 28"),
                "{message}"
            );
        }
        if first.contains("./run.json") {
            results
                .iter()
                .for_each(|name| assert!(manifest.contains(*name), "{kilobytes} kB: {name}"));
            assert_eq!(results.len(), manifest.len(), "{kilobytes} kB");
        } else {
            results
                .iter()
                .for_each(|name| assert!(plan.contains(*name), "{kilobytes} kB: {name}"));
        }
    }
    println!("{sizes} sizes, {starved:?} too small");
    assert!(starved.iter().all(|starved| *starved > 2));
}

fn is_root() -> bool {
    let output = Command::new("id").arg("-u").output().unwrap();
    output.stdout == b"0\n"
}

fn give(path: &Path, mode: u32) {
    if is_root() {
        chown(path, Some(65534), Some(65534)).unwrap();
    }
    fs::set_permissions(path, fs::Permissions::from_mode(mode)).unwrap();
}

/// A folder of the system's own, where a user without rights gets to.
fn open_folder(name: &str) -> PathBuf {
    let folder = std::env::temp_dir().join(format!("steyrbunk-{name}-{}", std::process::id()));
    let _ = fs::remove_dir_all(&folder);
    fs::create_dir_all(&folder).unwrap();
    give(&folder, 0o755);
    folder
}

/// Rights that are missing stop nobody else, and are named where they are missing.
#[test]
fn rights() {
    let folder = open_folder("rights");
    let copy = folder.join("steyrbunk");
    fs::copy(BINARY, &copy).unwrap();
    fs::set_permissions(&copy, fs::Permissions::from_mode(0o755)).unwrap();
    // As a user without rights, since root is let in everywhere.
    let nobody = |words: &[&str]| {
        let mut command = Command::new(&copy);
        command
            .current_dir(&folder)
            .args(words)
            .stdin(Stdio::null());
        if is_root() {
            command.uid(65534).gid(65534);
        }
        ended(command)
    };
    let frames = folder.join("frames");
    for sub in ["", "closed", "open"] {
        fs::create_dir_all(frames.join(sub)).unwrap();
        for name in ["a.pgm", "b.pgm"] {
            let path = frames.join(sub).join(name);
            fs::write(&path, board(0, 1)).unwrap();
            give(&path, 0o644);
        }
        give(&frames.join(sub), 0o755);
    }
    let output = nobody(&["--out", "lists", "frames"]);
    assert_eq!(
        (status(&output), error(&output).as_str()),
        (0, "6 frames, 0 without a list\n")
    );
    let lists = folder.join("lists");
    // An unreadable subfolder and an unreadable frame: the others are taken, and these have no list.
    give(&frames.join("closed"), 0o000);
    give(&frames.join("open/a.pgm"), 0o000);
    let output = nobody(&["--out", "lists", "frames"]);
    assert_eq!(status(&output), 1);
    assert!(
        error(&output).contains("frames/closed: Permission denied"),
        "{}",
        error(&output)
    );
    assert!(
        error(&output).contains("frames/open/a.pgm: Permission denied"),
        "{}",
        error(&output)
    );
    let files: Vec<String> = all(&lists).into_keys().collect();
    assert_eq!(
        files,
        [
            "a.pgm.corners",
            "b.pgm.corners",
            "open/b.pgm.corners",
            "run.json"
        ]
    );
    let manifest = fs::read_to_string(lists.join("run.json")).unwrap();
    assert!(manifest.contains("\"problems\":[\"frames/closed: Permission denied"));
    // What the run before had there cannot be got at, which is not to be gone.
    for name in ["closed/a.pgm", "closed/b.pgm"] {
        assert!(
            manifest.contains(&format!("{{\"name\":\"{name}\"")),
            "{manifest}"
        );
        assert!(error(&output).contains(&format!("frames/{name}: Permission denied")));
    }
    assert!(!manifest.contains("\"gone\""));
    // An output that cannot be written: nothing is changed, and what is there is of one run.
    give(&frames.join("closed"), 0o755);
    let before = all(&lists);
    give(&lists, 0o555);
    give(&lists.join("open"), 0o555);
    let output = nobody(&["--out", "lists", "frames"]);
    assert_eq!(status(&output), 1);
    assert!(
        error(&output).contains("lists/run.json: Permission denied"),
        "{}",
        error(&output)
    );
    assert_eq!(all(&lists), before);
    // A list whose name cannot be taken away: no manifest is left over it, and the plan owns it.
    give(&lists, 0o755);
    let output = nobody(&["--out", "lists", "frames"]);
    assert_eq!(status(&output), 1);
    assert!(
        error(&output).contains("lists/open/b.pgm.corners: Permission denied"),
        "{}",
        error(&output)
    );
    let files: Vec<String> = all(&lists).into_keys().collect();
    assert_eq!(
        files,
        [
            "a.pgm.corners.part",
            "b.pgm.corners.part",
            "open/b.pgm.corners",
            "run.plan"
        ]
    );
    give(&lists.join("open"), 0o755);
    let output = nobody(&["--out", "lists", "frames"]);
    assert_eq!(status(&output), 1, "the unreadable frame");
    assert_eq!(all(&lists).len(), 6);
    // Records: one that cannot be read has no list; where the output cannot be written nothing is changed.
    give(&frames.join("open/a.pgm"), 0o644);
    let keep = ["--out", "kept", "--format", "record", "--quiet", "frames"];
    assert_eq!(status(&nobody(&keep)), 0);
    let kept = folder.join("kept");
    let before = all(&kept);
    assert_eq!(before.len(), 7);
    give(&kept.join("open/b.pgm.record"), 0o000);
    let output = nobody(&["read", "--out", "again", "--quiet", "kept"]);
    assert_eq!(status(&output), 1);
    let message = "kept/open/b.pgm.record: Permission denied";
    assert!(error(&output).contains(message), "{}", error(&output));
    let again = all(&folder.join("again"));
    assert!(again.len() == 6 && !again.contains_key("open/b.pgm.record.corners"));
    give(&kept.join("open/b.pgm.record"), 0o644);
    for closed in ["kept", "again"] {
        give(&folder.join(closed), 0o555);
    }
    let output = nobody(&keep);
    assert_eq!(status(&output), 1);
    assert!(error(&output).contains("kept/run.json: Permission denied"));
    let output = nobody(&["read", "--out", "again", "--quiet", "kept"]);
    assert_eq!(status(&output), 1);
    assert!(error(&output).contains("again/run.json: Permission denied"));
    assert!(all(&kept) == before && all(&folder.join("again")) == again);
    // An arch: a camera whose file cannot be read has no list, and none from yesterday.
    let words = [
        "arch",
        "--out",
        "arch",
        "--quiet",
        "frames/b.pgm",
        "frames/a.pgm",
    ];
    assert_eq!(status(&nobody(&words)), 0);
    give(&frames.join("a.pgm"), 0o000);
    let output = nobody(&words);
    let message = "camera 2: frames/a.pgm: Permission denied (os error 13)\n";
    assert_eq!((status(&output), error(&output).as_str()), (1, message));
    let arch = all(&folder.join("arch"));
    let files: Vec<&String> = arch.keys().collect();
    assert_eq!(files, ["b.pgm.1.corners", "run.json"]);
    give(&frames.join("a.pgm"), 0o644);
    give(&folder.join("arch"), 0o555);
    let output = nobody(&words);
    assert_eq!(status(&output), 1);
    assert!(error(&output).contains("arch/run.json: Permission denied"));
    assert!(all(&folder.join("arch")) == arch);
    fs::remove_dir_all(&folder).unwrap();
}

/// While one run has a folder, another is told so and changes nothing.
#[test]
fn two_at_a_time() {
    let folder = folder("two");
    write_day(&folder.join("frames"), 0);
    assert_eq!(
        status(&run(&folder, &["--out", "lists", "--quiet", "frames"])),
        0
    );
    let record = run(&folder, &["--format", "record", "frames/001.pgm"]).stdout;
    let frame = run(&folder, &["frame", "frames/001.pgm"]).stdout;
    let one = ["run.json", "stdin.corners"];
    second_run(&folder, &["--out", "lists", "-"], &board(0, 1), &one);
    second_run(&folder, &["read", "--out", "lists", "-"], &record, &one);
    let two = ["run.json", "stdin.1.corners", "stdin.2.corners"];
    let arch = ["arch", "--quiet", "--out", "lists", "--cameras", "2", "-"];
    second_run(&folder, &arch, &[&frame[..], &frame].concat(), &two);
}

/// One run waits for its frame, record or arch on standard input; another one comes along. `left` is what the first one leaves.
fn second_run(folder: &Path, words: &[&str], input: &[u8], left: &[&str]) {
    let mut first = Command::new(BINARY);
    let mut first = first
        .current_dir(folder)
        .args(words)
        .stdin(Stdio::piped())
        .spawn()
        .unwrap();
    let lists = folder.join("lists");
    let started = Instant::now();
    let planned = || {
        let plan = fs::read_to_string(lists.join("run.plan"));
        plan.is_ok_and(|plan| left[1..].iter().all(|result| plan.contains(result)))
    };
    while !planned() {
        assert!(started.elapsed() < Duration::from_secs(20));
        sleep(Duration::from_millis(1));
    }
    let before = all(&lists);
    for second in [
        &["frames"][..],
        &["--format", "record", "frames"],
        &["arch", "frames/001.pgm", "frames/002.pgm"],
    ] {
        let output = run(folder, &[second, &["--out", "lists"]].concat());
        assert_eq!(status(&output), 1);
        let message = "lists: another run is writing there; nothing was changed";
        assert!(error(&output).contains(message));
        assert_eq!(all(&lists), before);
    }
    first.stdin.take().unwrap().write_all(input).unwrap();
    assert!(first.wait().unwrap().success());
    let files: Vec<String> = all(&lists).into_keys().collect();
    assert_eq!(files, left);
    assert_eq!(status(&run(folder, &["--out", "lists", "frames"])), 0);
}

/// Of several folders one that another run has stops none of the others.
#[test]
fn one_of_several() {
    let folder = folder("several");
    for name in ["one", "two", "three"] {
        fs::create_dir_all(folder.join(name)).unwrap();
        fs::write(folder.join(name).join("a.pgm"), board(0, 1)).unwrap();
    }
    let words = ["--beside", "--quiet", "one", "two", "three"];
    assert_eq!(status(&run(&folder, &words)), 0);
    let lock = fs::File::open(folder.join("two")).unwrap();
    lock.lock().unwrap();
    let before = all(&folder.join("two"));
    fs::write(folder.join("one/a.pgm"), board(1, 1)).unwrap();
    let old = fs::read(folder.join("one/a.pgm.corners")).unwrap();
    let output = run(&folder, &words);
    assert_eq!(status(&output), 1);
    assert_eq!(
        error(&output),
        "two: another run is writing there; nothing was changed\n"
    );
    assert_eq!(all(&folder.join("two")), before);
    assert_ne!(fs::read(folder.join("one/a.pgm.corners")).unwrap(), old);
    for name in ["one", "three"] {
        let names: Vec<String> = all(&folder.join(name)).into_keys().collect();
        assert_eq!(names, ["a.pgm", "a.pgm.corners", "run.json"]);
    }
}

/// Frames that are gone, an empty mount point, a folder that is gone.
#[test]
fn nothing_to_find() {
    let folder = folder("nothing");
    let (frames, lists) = (folder.join("frames"), folder.join("lists"));
    write_day(&frames, 0);
    let words = ["--out", "lists", "--quiet", "frames"];
    assert_eq!(status(&run(&folder, &words)), 0);
    fs::remove_file(frames.join("001.pgm")).unwrap();
    let output = run(&folder, &words);
    assert_eq!(status(&output), 1);
    assert!(error(&output).contains("frames/001.pgm: gone: the run before had it"));
    assert!(!lists.join("001.pgm.corners").exists());
    let manifest = fs::read_to_string(lists.join("run.json")).unwrap();
    assert!(
        manifest.contains("{\"name\":\"001.pgm\"")
            && manifest.contains("\"gone\":true,\"results\":[]")
    );
    // It is told once; a run that names other frames does not take these for gone.
    assert_eq!(status(&run(&folder, &words)), 0);
    assert_eq!(status(&run(&folder, &["--out", "lists", "frames/two"])), 0);
    assert_eq!(all(&lists).len(), 1 + FRAMES / 4);
    assert_eq!(status(&run(&folder, &words)), 0);
    fs::rename(&frames, folder.join("away")).unwrap();
    for mounted in [true, false] {
        if mounted {
            fs::create_dir(&frames).unwrap();
        } else {
            fs::remove_dir(&frames).unwrap();
        }
        let output = run(&folder, &words);
        assert_eq!(status(&output), 1);
        let text = if mounted {
            "frames: no .pgm or .frame file in it"
        } else {
            "frames: No such file"
        };
        assert!(error(&output).contains(text), "{}", error(&output));
        let files: Vec<String> = all(&lists).into_keys().collect();
        assert_eq!(files, ["run.json"]);
    }
    // A camera of an arch whose file is gone.
    fs::rename(folder.join("away"), &frames).unwrap();
    let words = [
        "arch",
        "--out",
        "lists",
        "--quiet",
        "frames/001.pgm",
        "frames/002.pgm",
    ];
    assert_eq!(status(&run(&folder, &words)), 1, "001 is away since above");
    fs::write(frames.join("001.pgm"), board(0, 1)).unwrap();
    assert_eq!(status(&run(&folder, &words)), 0);
    fs::remove_file(frames.join("001.pgm")).unwrap();
    let output = run(&folder, &words);
    assert_eq!(status(&output), 1);
    let text = "camera 1: frames/001.pgm: No such file or directory (os error 2)\n";
    assert_eq!(error(&output), text);
    let files: Vec<String> = all(&lists).into_keys().collect();
    assert_eq!(files, ["002.pgm.2.corners", "run.json"]);
}

/// What the command did not write stays, and is named.
#[test]
fn the_users_own_files() {
    let folder = folder("own");
    let (frames, lists) = (folder.join("frames"), folder.join("lists"));
    fs::create_dir_all(&frames).unwrap();
    fs::create_dir_all(&lists).unwrap();
    fs::write(frames.join("a.pgm"), board(0, 1)).unwrap();
    fs::write(frames.join("b.pgm"), board(0, 2)).unwrap();
    let mine = [
        "a.pgm.corners",
        "a.pgm.record",
        "notes.txt",
        "c.pgm.corners",
        "c.pgm.record",
        "b.pgm.csv",
    ];
    for name in mine {
        fs::write(lists.join(name), "mine").unwrap();
    }
    let words = ["--out", "lists", "frames"];
    for format in ["record", "list", "record", "record", "list", "list"] {
        let output = run(&folder, &[&words[..], &["--format", format]].concat());
        assert_eq!(status(&output), 1);
        let ending = if format == "list" { "corners" } else { format };
        let text = format!("a.pgm: a.pgm.{ending} is there and not of an earlier run: it stays");
        assert!(error(&output).contains(&text), "{}", error(&output));
        let files = all(&lists);
        assert_eq!(files.len(), mine.len() + 2);
        assert!(mine.iter().all(|name| files[*name] == b"mine"));
        assert!(files.contains_key(&format!("b.pgm.{ending}")));
    }
    // One that is in the way of a list that is read back.
    fs::write(folder.join("a.pgm.record"), record_of_none()).unwrap();
    fs::write(lists.join("a.pgm.record.csv"), "mine").unwrap();
    let read = ["read", "--out", "lists", "--format", "csv", "a.pgm.record"];
    let output = run(&folder, &read);
    assert_eq!(status(&output), 1);
    let text = "a.pgm.record: a.pgm.record.csv is there and not of an earlier run: it stays";
    assert!(error(&output).contains(text), "{}", error(&output));
    assert_eq!(all(&lists).len(), mine.len() + 2);
    // And of a camera's list: the other camera has its own.
    fs::write(lists.join("a.pgm.2.corners"), "mine").unwrap();
    let arch = ["arch", "--out", "lists", "frames/b.pgm", "frames/a.pgm"];
    for _ in 0..2 {
        let output = run(&folder, &arch);
        assert_eq!(status(&output), 1);
        let text =
            "camera 2: frames/a.pgm: a.pgm.2.corners is there and not of an earlier run: it stays";
        assert!(error(&output).contains(text), "{}", error(&output));
        let files = all(&lists);
        assert_eq!(files.len(), mine.len() + 4);
        assert!(files["a.pgm.2.corners"] == b"mine" && files.contains_key("b.pgm.1.corners"));
    }
    for name in ["a.pgm.corners", "a.pgm.record.csv", "a.pgm.2.corners"] {
        fs::remove_file(lists.join(name)).unwrap();
    }
    assert_eq!(status(&run(&folder, &words)), 0);
    // A manifest of somebody else, one that was damaged, and one that leads out of the folder.
    let outside = folder.join("outside.corners");
    fs::write(&outside, "mine").unwrap();
    for (text, message) in [
        ("{\"name\": \"an app\"}", "run.json: is not of this command"),
        ("", "run.json: is not of this command"),
        (
            "{\"steyrbunk\":\"0.1.0\",\"frames\":[{\"results\":[\"../outside.corners\"]}]}",
            "names a result that is not inside",
        ),
        (
            "{\"steyrbunk\":\"0.1.0\",\"frames\":[{\"results\":[\"/outside.corners\"]}]}",
            "names a result that is not inside",
        ),
    ] {
        fs::write(lists.join("run.json"), text).unwrap();
        let output = run(&folder, &words);
        assert_eq!(status(&output), 1);
        assert!(error(&output).contains(message), "{}", error(&output));
        assert!(outside.exists() && lists.join("b.pgm.corners").exists());
        let _ = fs::remove_file(lists.join("run.plan"));
    }
}

/// The record of a frame without corners.
fn record_of_none() -> Vec<u8> {
    vec![1, 0, 0, 0, 8, 0, 96, 0, 96, 0, 0, 0, 0]
}

/// Records that a run wrote are never taken away by the run that is to read them.
#[test]
fn sources_stay() {
    let folder = folder("sources");
    write_day(&folder.join("frames"), 0);
    let keep = [
        "--out",
        "kept/dawn",
        "--format",
        "record",
        "--quiet",
        "frames",
    ];
    assert_eq!(status(&run(&folder, &keep)), 0);
    let kept = folder.join("kept");
    std::os::unix::fs::symlink(&kept, folder.join("link")).unwrap();
    let refused = |words: &[&str]| {
        let before = all(&kept);
        let output = run(&folder, words);
        assert_eq!(status(&output), 1, "{words:?}");
        assert!(
            error(&output).contains("which is to be read"),
            "{}",
            error(&output)
        );
        assert!(
            error(&output).contains("nothing was changed"),
            "{}",
            error(&output)
        );
        assert!(all(&kept) == before, "{words:?}");
    };
    for words in [
        &["--out", "kept/dawn", "kept"][..],
        &["--out", "kept/dawn", "kept/dawn/001.pgm.record"],
        &["--out", "kept/dawn", "--format", "record", "link"],
        &["--beside", "kept"],
        &["--beside", "link", "--format", "csv"],
        &["--beside", "kept/dawn/001.pgm.record"],
    ] {
        refused(&[&["read"][..], words].concat());
    }
    // Into a folder below: the first time; not over what it would read itself the second time.
    let below = [
        "read",
        "--out",
        "kept/below",
        "--format",
        "record",
        "--quiet",
        "kept",
    ];
    assert_eq!(status(&run(&folder, &below)), 0);
    refused(&below);
    // A run that was cut off owns its records by its plan; that they do not count is said, and they stay.
    fs::remove_dir_all(kept.join("below")).unwrap();
    fs::rename(kept.join("dawn/run.json"), kept.join("dawn/run.plan")).unwrap();
    refused(&["read", "--out", "kept/dawn", "kept"]);
    for path in ["kept", "kept/dawn/001.pgm.record"] {
        let output = run(&folder, &["read", "--out", "lists", "--quiet", path]);
        assert_eq!(status(&output), 1);
        let text = "kept/dawn: a run.plan and no run.json: a run there is not over or was cut off, and no record of it counts\n";
        assert_eq!(error(&output), text);
    }
    let manifest = fs::read_to_string(folder.join("lists/run.json")).unwrap();
    assert!(manifest.contains("\"problems\":[\"kept/dawn: a run.plan"));
    // Records that are gone are told of once, like frames.
    fs::rename(kept.join("dawn/run.plan"), kept.join("dawn/run.json")).unwrap();
    let words = ["read", "--out", "lists", "--quiet", "kept"];
    assert_eq!(status(&run(&folder, &words)), 0);
    fs::remove_file(kept.join("dawn/001.pgm.record")).unwrap();
    let output = run(&folder, &words);
    assert_eq!(status(&output), 1);
    let text = "kept/dawn/001.pgm.record: gone: the run before had it\n";
    assert!(error(&output).ends_with(text), "{}", error(&output));
    assert!(!folder.join("lists/dawn/001.pgm.record.corners").exists());
    assert_eq!(status(&run(&folder, &words)), 0);
    // And a folder without any has nothing to read.
    let output = run(&folder, &["read", "--out", "lists", "frames"]);
    assert_eq!(status(&output), 1);
    assert!(error(&output).contains("frames: no .record file in it"));
    assert_eq!(all(&folder.join("lists")).len(), 1);
}

/// No frame can keep a run waiting, and no name can break a list.
#[test]
fn strange_frames_and_names() {
    let folder = folder("strange");
    let frames = folder.join("frames");
    fs::create_dir_all(&frames).unwrap();
    let pipe = Command::new("mkfifo")
        .arg(frames.join("x.pgm"))
        .status()
        .unwrap();
    assert!(pipe.success());
    let names: [&[u8]; 4] = [
        b"new\nline.pgm",
        b"\x1b[2Jclear.pgm",
        b"\xff\xfebytes.pgm",
        b"quo\"te,.pgm",
    ];
    for name in names {
        fs::write(frames.join(OsStr::from_bytes(name)), board(0, 1)).unwrap();
    }
    let output = run(&folder, &["frames", "--quiet"]);
    assert_eq!(status(&output), 1);
    assert!(error(&output).contains("frames/x.pgm: not a regular file"));
    let text = String::from_utf8(output.stdout).unwrap();
    let heads: Vec<&str> = text.lines().filter(|line| line.starts_with('#')).collect();
    assert_eq!(heads.len(), 5);
    for head in [
        "# frames/new\\x0aline.pgm",
        "# frames/\\x1b[2Jclear.pgm",
        "# frames/\\xff\\xfebytes.pgm",
    ] {
        assert!(heads.contains(&head), "{heads:?}");
    }
    assert!(!text.contains('\x1b'));
    for format in ["csv", "json"] {
        let output = run(&folder, &["frames", "--quiet", "--format", format]);
        let text = String::from_utf8(output.stdout).unwrap();
        assert!(
            !text.contains('\x1b') && text.lines().all(|line| line.starts_with(['f', '{', '"'])),
            "{text}"
        );
    }
    let output = run(
        &folder,
        &["arch", "--quiet", "frames/x.pgm", "frames/new\nline.pgm"],
    );
    let text = String::from_utf8(output.stdout).unwrap();
    let front = "# camera 1: frames/x.pgm\nno list: not a regular file (a folder, pipe, socket or device)\n\
                 # camera 2: frames/new\\x0aline.pgm\n96 96 ";
    assert!(text.starts_with(front), "{text}");
    // The results are found again by their own names, and cleared.
    for _ in 0..2 {
        assert_eq!(status(&run(&folder, &["--beside", "--quiet", "frames"])), 1);
        for name in names {
            let mut list = frames.join(OsStr::from_bytes(name)).into_os_string();
            list.push(".corners");
            assert!(Path::new(&list).exists());
        }
    }
    for name in names {
        fs::write(frames.join(OsStr::from_bytes(name)), b"P5").unwrap();
    }
    assert_eq!(status(&run(&folder, &["--beside", "--quiet", "frames"])), 1);
    assert_eq!(
        fs::read_dir(&frames).unwrap().count(),
        6,
        "four frames, the pipe, run.json"
    );
}

/// Lists come in the order of names, however many frames are taken up at a time.
#[test]
fn in_order() {
    let folder = folder("order");
    write_day(&folder.join("frames"), 0);
    let one = run(&folder, &["--jobs", "1", "--quiet", "frames"]);
    assert_eq!(status(&one), 0);
    for jobs in ["2", "7", "100"] {
        let several = run(&folder, &["--jobs", jobs, "--quiet", "frames"]);
        assert_eq!(several.stdout, one.stdout);
    }
    let text = String::from_utf8(one.stdout).unwrap();
    let names: Vec<&str> = text.lines().filter(|line| line.starts_with('#')).collect();
    assert!(names.is_sorted() && names.len() == FRAMES);
}

/// Standard output that cannot be written is said, and counts.
#[test]
fn a_full_output() {
    let folder = folder("output");
    fs::write(folder.join("a.pgm"), board(0, 1)).unwrap();
    fs::write(folder.join("a.record"), record_of_none()).unwrap();
    for words in [
        &["a.pgm"][..],
        &["--format", "record", "a.pgm"],
        &["read", "a.record"],
        &["arch", "a.pgm", "a.pgm"],
    ] {
        let mut command = command(&folder, words);
        command.stdout(
            fs::OpenOptions::new()
                .write(true)
                .open("/dev/full")
                .unwrap(),
        );
        let output = command
            .stderr(Stdio::piped())
            .spawn()
            .unwrap()
            .wait_with_output()
            .unwrap();
        assert_eq!(status(&output), 1);
        assert!(error(&output).contains("standard output: No space left on device"));
    }
}
