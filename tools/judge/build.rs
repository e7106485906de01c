//! Writes the module tree that compiles the published files, their text unchanged.

use std::path::{Path, PathBuf};
use std::{env, fs, process};

/// Names the checkout; a path from the package if relative.
const VARIABLE: &str = "CHESS_CORNERS_RS";
/// Where the files lie if the variable is not set: beside the repository.
const DEFAULT: &str = "../../../shared/docs/src";
const CORE: &str = "crates/chess-corners-core/src";

/// The files that are compiled where they lie.
const FILES: [(&str, &str); 3] = [
    ("IMAGEVIEW", "imageview.rs"),
    ("NEIGHBORS", "detect/neighbors.rs"),
    ("PRIMITIVES", "detect/radon/primitives.rs"),
];

/// The files with a module of ours behind their text, for what is private in them; and that module, a path from either package.
const OPENED: [(&str, &str, &str); 2] = [
    (
        "RESPONSE",
        "detect/radon/response.rs",
        "../judge/src/opened.rs",
    ),
    (
        "DETECT",
        "detect/radon/detect.rs",
        "../judge/src/opened_detect.rs",
    ),
];

const TREE: &str = r#"
#[path = IMAGEVIEW]
#[allow(dead_code)]
mod imageview;

#[allow(dead_code)]
mod detect {
    #[path = NEIGHBORS]
    mod neighbors;
    pub use crate::shells::Corner;
    pub(crate) use neighbors::{count_positive_neighbors, is_local_max};

    pub(crate) mod radon {
        #[path = PRIMITIVES]
        pub(crate) mod primitives;
        #[path = RESPONSE]
        pub(crate) mod response;
        #[path = DETECT]
        pub(crate) mod detect;
        pub(crate) use response::RadonBuffers;
    }
}
"#;

fn package() -> PathBuf {
    PathBuf::from(env::var("CARGO_MANIFEST_DIR").expect("set by cargo"))
}

fn checkout() -> PathBuf {
    package().join(env::var(VARIABLE).unwrap_or_else(|_| DEFAULT.to_string()))
}

fn published(core: &Path, name: &str) -> PathBuf {
    let path = core.join(name);
    println!("cargo:rerun-if-changed={}", path.display());
    fs::canonicalize(&path).unwrap_or_else(|error| {
        eprintln!("{}: {error}", path.display());
        eprintln!("Set {VARIABLE} to a checkout of chess-corners-rs, commit fbc3e85b96.");
        process::exit(1)
    })
}

/// The published text, and behind it the line that names our module.
fn opened(core: &Path, name: &str, module: &str) -> String {
    let text = fs::read_to_string(published(core, name)).expect("a file that is there");
    let module = package().join(module);
    println!("cargo:rerun-if-changed={}", module.display());
    format!("{text}\n#[path = {module:?}]\npub(crate) mod opened;\n")
}

fn main() {
    println!("cargo:rerun-if-env-changed={VARIABLE}");
    let core = checkout().join(CORE);
    let out = PathBuf::from(env::var("OUT_DIR").expect("set by cargo"));
    let write = |name: &str, text: String| {
        let path = out.join(name);
        fs::write(&path, text).expect("the build directory can be written");
        path
    };
    let point = |tree: String, mark: &str, path: &Path| {
        tree.replace(&format!("= {mark}]"), &format!("= {path:?}]"))
    };
    let tree = FILES.iter().fold(TREE.to_string(), |tree, (mark, name)| {
        point(tree, mark, &published(&core, name))
    });
    let tree = OPENED.iter().fold(tree, |tree, (mark, name, module)| {
        let copy = write(
            &format!("{}.rs", mark.to_lowercase()),
            opened(&core, name, module),
        );
        point(tree, mark, &copy)
    });
    write("original.rs", tree);
}
