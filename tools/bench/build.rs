//! Links the library of single passes if `tools/passes` has built it.

use std::env;
use std::path::PathBuf;

/// Names the folder of the archive; a path from the package if relative.
const VARIABLE: &str = "STEYRBUNK_PASSES";
/// Where `tools/passes ../passes` leaves it, beside the repository.
const DEFAULT: &str = "../../../passes";
const ARCHIVE: &str = "libpasses.a";

fn main() {
    println!("cargo:rustc-check-cfg=cfg(passes)");
    println!("cargo:rerun-if-env-changed={VARIABLE}");
    let package = PathBuf::from(env::var("CARGO_MANIFEST_DIR").expect("set by cargo"));
    let folder = package.join(env::var(VARIABLE).unwrap_or_else(|_| DEFAULT.to_string()));
    let archive = folder.join(ARCHIVE);
    println!("cargo:rerun-if-changed={}", archive.display());
    // The whole calls are timed without it; the table then says that the single passes are left out.
    if archive.is_file() {
        println!("cargo:rustc-link-search=native={}", folder.display());
        println!("cargo:rustc-cfg=passes");
    }
}
