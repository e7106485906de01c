//! Files of a folder, and reading without trust in their kind or length.

use std::fs::{self, File, OpenOptions};
use std::io::{self, Read};
use std::path::{Path, PathBuf};

/// Bytes of the longest file that can hold a frame: the greatest sides and an opening, comments and all.
pub const LONGEST: u64 = (limits::SIDE * limits::SIDE) as u64 + 65_536;

/// The whole file, or nothing if it is longer than that; at most one byte more is read.
/// Only a regular file is read, so that no pipe or device can keep the caller waiting.
pub fn read(path: &Path, longest: u64) -> io::Result<Option<Vec<u8>>> {
    let file = opened(path)?;
    if !file.metadata()?.is_file() {
        let text = "not a regular file (a folder, pipe, socket or device)";
        return Err(io::Error::new(io::ErrorKind::InvalidInput, text));
    }
    limited(file, longest)
}

/// The same of standard input, whatever that is.
pub fn read_input(longest: u64) -> io::Result<Option<Vec<u8>>> {
    limited(io::stdin(), longest)
}

fn limited(input: impl Read, longest: u64) -> io::Result<Option<Vec<u8>>> {
    let mut file = Vec::new();
    input.take(longest + 1).read_to_end(&mut file)?;
    Ok((file.len() as u64 <= longest).then_some(file))
}

/// Opening a pipe waits for its other end unless it is asked not to.
#[cfg(unix)]
fn opened(path: &Path) -> io::Result<File> {
    use std::os::unix::fs::OpenOptionsExt;
    const NONBLOCK: i32 = if cfg!(target_os = "linux") { 0o4000 } else { 4 };
    OpenOptions::new()
        .read(true)
        .custom_flags(NONBLOCK)
        .open(path)
}

#[cfg(not(unix))]
fn opened(path: &Path) -> io::Result<File> {
    OpenOptions::new().read(true).open(path)
}

/// What a walk through a folder found.
#[derive(Default)]
pub struct Inside {
    /// The files with one of the endings, by name.
    pub files: Vec<PathBuf>,
    /// All folders that were walked, the first one among them.
    pub folders: Vec<PathBuf>,
    /// Folders and entries that could not be read, with the reason: none of them stops the others.
    pub unread: Vec<(PathBuf, io::Error)>,
}

/// The files with one of these endings in a folder and the folders below it.
pub fn inside(folder: &Path, endings: &[&str]) -> Inside {
    let mut found = Inside::default();
    let mut folders = vec![folder.to_path_buf()];
    while let Some(folder) = folders.pop() {
        match entries(&folder, endings) {
            Ok((files, below)) => {
                found.files.extend(files);
                folders.extend(below);
                found.folders.push(folder);
            }
            Err(error) => found.unread.push((folder, error)),
        }
    }
    found.files.sort();
    found.folders.sort();
    found.unread.sort_by(|a, b| a.0.cmp(&b.0));
    found
}

/// The files with an ending and the folders of one folder.
fn entries(folder: &Path, endings: &[&str]) -> io::Result<(Vec<PathBuf>, Vec<PathBuf>)> {
    let (mut files, mut folders) = (Vec::new(), Vec::new());
    for entry in fs::read_dir(folder)? {
        let entry = entry?;
        // The kind is the entry's own: a link to a folder is not followed, so no ring is walked.
        if entry.file_type()?.is_dir() {
            folders.push(entry.path());
        } else if has_ending(&entry.path(), endings) {
            files.push(entry.path());
        }
    }
    Ok((files, folders))
}

fn has_ending(path: &Path, endings: &[&str]) -> bool {
    let ending = path.extension().unwrap_or_default();
    endings.iter().any(|each| ending.eq_ignore_ascii_case(each))
}
