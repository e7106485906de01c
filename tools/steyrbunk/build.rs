//! Links the static libraries from where they lie, or says how to build what is not there.

use std::path::{Path, PathBuf};
use std::{env, process};

/// Names the folder of both archives, wherever that is; a path from the package if relative.
const VARIABLE: &str = "STEYRBUNK_LIB";
/// The crates: without the variable each archive lies in the out/ of its own, where `rt lib` leaves it.
const CRATES: &str = "../../crates";
/// The finder, and the verdict on one pixel: a second caller of the rules in the finder's archive keeps them from being
/// compiled into its scan. The tests link them into C programs as well, by these names.
const LIBRARIES: [(&str, &str); 2] = [
    ("steyrbunk_c", "STEYRBUNK_ARCHIVE"),
    ("steyrbunk_verdict", "STEYRBUNK_VERDICT_ARCHIVE"),
];

fn main() {
    println!("cargo:rerun-if-env-changed={VARIABLE}");
    let package = PathBuf::from(env::var("CARGO_MANIFEST_DIR").expect("set by cargo"));
    let named = env::var_os(VARIABLE).map(|folder| package.join(folder));
    let crates = package.join(CRATES);
    for (library, variable) in LIBRARIES {
        let archive = archive(named.as_deref(), &crates, library);
        let folder = archive.parent().expect("a file in a folder");
        println!("cargo:rustc-link-search=native={}", folder.display());
        println!("cargo:rerun-if-changed={}", archive.display());
        println!("cargo:rustc-link-lib=static={library}");
        println!("cargo:rustc-env={variable}={}", archive.display());
    }
    if let Some(words) = missing(named.as_deref(), &crates) {
        eprint!("{words}");
        process::exit(1);
    }
}

/// In the folder that is named, or else where `rt lib` leaves it.
fn archive(named: Option<&Path>, crates: &Path, library: &str) -> PathBuf {
    let folder = named.map_or_else(|| crates.join(library).join("out"), Path::to_path_buf);
    folder.join(format!("lib{library}.a"))
}

/// What is not there and how to build it; nothing if all is there.
pub fn missing(named: Option<&Path>, crates: &Path) -> Option<String> {
    let gone = LIBRARIES
        .map(|(library, _)| (library, archive(named, crates, library)))
        .into_iter()
        .filter(|(_, archive)| !archive.is_file());
    let words: String = gone
        .map(|(library, archive)| {
            format!(
                "{} is not there. Build it from the repository's root:\n  \
                 (cd crates/{library} && rt lib)\n",
                archive.display()
            )
        })
        .collect();
    let both = LIBRARIES.map(|(library, _)| format!("lib{library}.a"));
    (!words.is_empty()).then(|| {
        format!(
            "{words}or set {VARIABLE} to the folder that holds {}.\n",
            both.join(" and ")
        )
    })
}
