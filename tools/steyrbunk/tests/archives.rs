//! What the build says of archives that are not there.

use std::fs;
use std::path::{Path, PathBuf};

#[allow(dead_code)] // its main is cargo's to call
#[path = "../build.rs"]
mod build;

const FINDER: &str = "libsteyrbunk_c.a";
const VERDICT: &str = "libsteyrbunk_verdict.a";

/// An empty folder.
fn folder(name: &str) -> PathBuf {
    let folder = Path::new(env!("CARGO_TARGET_TMPDIR")).join(name);
    let _ = fs::remove_dir_all(&folder);
    fs::create_dir_all(&folder).expect("made");
    folder
}

fn written(archive: PathBuf) {
    fs::create_dir_all(archive.parent().expect("a folder")).expect("made");
    fs::write(archive, b"").expect("written");
}

/// The two lines on one archive.
fn told(path: &Path, library: &str) -> String {
    format!(
        "{} is not there. Build it from the repository's root:\n  \
         (cd crates/{library} && rt lib)\n",
        path.display()
    )
}

fn or() -> String {
    format!("or set STEYRBUNK_LIB to the folder that holds {FINDER} and {VERDICT}.\n")
}

#[test]
fn what_is_missing_is_told_with_the_line_that_builds_it() {
    let nowhere = Path::new("/nowhere");
    let named = folder("named");
    let missing = || build::missing(Some(&named), nowhere);
    let all = [
        told(&named.join(FINDER), "steyrbunk_c"),
        told(&named.join(VERDICT), "steyrbunk_verdict"),
        or(),
    ];
    assert_eq!(missing(), Some(all.concat()));
    // As it is where only the finder was built, which was enough before 0.4.0.
    written(named.join(FINDER));
    let verdict = told(&named.join(VERDICT), "steyrbunk_verdict");
    assert_eq!(missing(), Some(format!("{verdict}{}", or())));
    written(named.join(VERDICT));
    assert_eq!(missing(), None);
}

#[test]
fn without_the_variable_each_lies_in_its_crate() {
    let crates = folder("crates");
    let finder = crates.join("steyrbunk_c/out").join(FINDER);
    let verdict = crates.join("steyrbunk_verdict/out").join(VERDICT);
    let missing = || build::missing(None, &crates);
    let all = [
        told(&finder, "steyrbunk_c"),
        told(&verdict, "steyrbunk_verdict"),
        or(),
    ];
    assert_eq!(missing(), Some(all.concat()));
    written(verdict);
    let finder_alone = told(&finder, "steyrbunk_c");
    assert_eq!(missing(), Some(format!("{finder_alone}{}", or())));
    written(finder);
    assert_eq!(missing(), None);
}
