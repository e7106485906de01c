//! The folder that a run writes to. A run is whole or it is none:
//!
//! - `run.json`, the manifest, is written last and by rename: where it stands, every list that it names is of that run.
//! - It is the first thing that the next run takes away: it becomes `run.plan`, by rename, and the results that it names lose their names.
//! - `run.plan` names all that a run is about to write before it writes any of it, so that the next run can clear up after one that was killed.
//! - Results have a name of their own only at the end of a run; until then they end in `.part`. An old result becomes such a part, by rename,
//!   and is written over: that takes its name away at once, where removing it can take milliseconds (a disk that forgets blocks as they are freed).
//! - Nothing else is ever removed or written over.
//! - Where a run is to read what the run before wrote there, nothing is changed at all: it would take its own sources away.

use std::collections::BTreeSet;
use std::fs::{self, File, OpenOptions, TryLockError};
use std::io::{self, ErrorKind, Write};
use std::path::{Component, Path, PathBuf};

use crate::json::Json;
use console::shown;

pub const MANIFEST: &str = "run.json";
pub const PLAN: &str = "run.plan";
/// The ending of what is being written.
const PART: &str = "part";

/// A frame as an earlier manifest has it.
pub struct Earlier {
    pub name: Vec<u8>,
    /// Where it was read from, a whole path.
    pub path: Vec<u8>,
}

/// A folder that this run has to itself.
pub struct Site {
    folder: PathBuf,
    /// Held until the run is over.
    _lock: File,
    /// The frames of the run before.
    pub before: Vec<Earlier>,
    /// Results of earlier runs that have lost their names and are there as parts.
    aside: BTreeSet<PathBuf>,
    /// The plans by which they are owned until this run has its own.
    plans: Vec<PathBuf>,
}

impl Site {
    /// Takes a folder up and clears away the run before, in it and in the folders below it that are named too, unless that
    /// would take away one of these sources.
    pub fn take(folder: &Path, below: &[PathBuf], sources: &BTreeSet<PathBuf>) -> io::Result<Site> {
        let lock = File::open(folder).map_err(|error| named(folder, error))?;
        match lock.try_lock() {
            Ok(()) => {}
            Err(TryLockError::WouldBlock) => {
                let text = "another run is writing there; nothing was changed";
                return Err(named(folder, io::Error::new(ErrorKind::WouldBlock, text)));
            }
            Err(TryLockError::Error(error)) => return Err(named(folder, error)),
        }
        let mut site = Site {
            folder: folder.to_path_buf(),
            _lock: lock,
            before: Vec::new(),
            aside: BTreeSet::new(),
            plans: Vec::new(),
        };
        let folders = || std::iter::once(folder).chain(below.iter().map(PathBuf::as_path));
        folders().try_for_each(|folder| spare(folder, sources))?;
        folders().try_for_each(|folder| site.clear(folder))?;
        Ok(site)
    }

    /// Takes away what earlier runs left in a folder.
    fn clear(&mut self, folder: &Path) -> io::Result<()> {
        let (manifest, plan) = (folder.join(MANIFEST), folder.join(PLAN));
        // A plan is of a run that was cut off. A manifest becomes a plan: from then on no list counts, and if this run
        // is cut off here the next one goes on.
        let cut_off = read(&plan)?;
        if let Some(earlier) = read(&manifest)? {
            if let Some(cut_off) = &cut_off {
                self.set_aside(folder, &plan, cut_off)?;
            }
            fs::rename(&manifest, &plan).map_err(|error| named(&manifest, error))?;
            sync_folder(folder)?;
            self.set_aside(folder, &plan, &earlier)?;
            self.plans.push(plan);
        } else if let Some(cut_off) = &cut_off {
            self.set_aside(folder, &plan, cut_off)?;
            self.plans.push(plan);
        }
        Ok(())
    }

    /// Takes the names of the results that a plan names, whole or half written.
    fn set_aside(&mut self, folder: &Path, plan: &Path, json: &Json) -> io::Result<()> {
        let at = folder
            .strip_prefix(&self.folder)
            .unwrap_or(Path::new(""))
            .to_path_buf();
        for result in results(json) {
            let result = result.text().and_then(inner).ok_or_else(|| {
                let text = "names a result that is not inside its folder, which stays";
                named(plan, io::Error::new(ErrorKind::InvalidData, text))
            })?;
            let path = folder.join(&result);
            let there = match fs::rename(&path, part(&path)) {
                Ok(()) => true,
                Err(error) if is_missing(&error) => fs::symlink_metadata(part(&path)).is_ok(),
                Err(error) => return Err(named(&path, error)),
            };
            if there {
                self.aside.insert(at.join(result));
            }
        }
        for frame in list(json, "frames")
            .iter()
            .filter(|frame| frame.get("gone").is_none())
        {
            let text = |name| {
                frame
                    .get(name)
                    .and_then(Json::text)
                    .unwrap_or_default()
                    .to_vec()
            };
            self.before.push(Earlier {
                name: text("name"),
                path: text("path"),
            });
        }
        Ok(())
    }

    /// Old results that are still there as parts.
    pub fn aside(&self) -> Vec<PathBuf> {
        self.aside.iter().cloned().collect()
    }

    /// Whether there is something in a result's place that is not of a run.
    pub fn is_taken(&self, result: &Path) -> bool {
        let path = self.folder.join(result);
        let is_there = |path: &Path| fs::symlink_metadata(path).is_ok();
        is_there(&path) || !self.aside.contains(result) && is_there(&part(&path))
    }

    /// Says what will be written and what is there aside, before anything is written.
    pub fn plan(&self, text: &str) -> io::Result<()> {
        self.put(PLAN, text)?;
        let own = self.folder.join(PLAN);
        for plan in self.plans.iter().filter(|plan| **plan != own) {
            fs::remove_file(plan).map_err(|error| named(plan, error))?;
        }
        Ok(())
    }

    /// Writes a result under its passing name, over an old one that is aside.
    pub fn write(&self, result: &Path, content: &[u8]) -> io::Result<()> {
        let path = part(&self.folder.join(result));
        let mut options = OpenOptions::new();
        options.write(true).create_new(!self.aside.contains(result));
        let file = match options.open(&path) {
            Err(error) if error.kind() == ErrorKind::NotFound => {
                let folder = path.parent().unwrap_or(&self.folder);
                fs::create_dir_all(folder).map_err(|error| named(folder, error))?;
                options.open(&path)
            }
            opened => opened,
        };
        let written = file.and_then(|mut file| {
            file.write_all(content)?;
            file.set_len(content.len() as u64)
        });
        written.map_err(|error| named(&path, error))
    }

    /// Takes back a result that was written.
    pub fn unwrite(&self, result: &Path) {
        let path = self.folder.join(result);
        let _ = fs::remove_file(part(&path));
        let _ = fs::remove_file(&path);
    }

    /// Gives a result its own name.
    pub fn name(&self, result: &Path) -> io::Result<()> {
        let path = self.folder.join(result);
        fs::rename(part(&path), &path).map_err(|error| named(&path, error))
    }

    /// All results are named: removes what was aside and has no successor, brings all to the disk, then the manifest, and then
    /// the plan is done with.
    pub fn finish(&self, text: &str, results: &[PathBuf]) -> io::Result<()> {
        let named_again: BTreeSet<&PathBuf> = results.iter().collect();
        for result in self
            .aside
            .iter()
            .filter(|result| !named_again.contains(result))
        {
            let path = part(&self.folder.join(result));
            match fs::remove_file(&path) {
                Err(error) if !is_missing(&error) => return Err(named(&path, error)),
                _ => {}
            }
        }
        self.settle(results)?;
        self.put(MANIFEST, text)?;
        let plan = self.folder.join(PLAN);
        fs::remove_file(&plan).map_err(|error| named(&plan, error))
    }

    /// A file by its passing name, brought to the disk, and then by its own.
    fn put(&self, name: &str, text: &str) -> io::Result<()> {
        let path = self.folder.join(name);
        let passing = part(&path);
        let written = File::create(&passing).and_then(|mut file| {
            file.write_all(text.as_bytes())?;
            file.sync_all()
        });
        if let Err(error) = written.and_then(|()| fs::rename(&passing, &path)) {
            let _ = fs::remove_file(&passing);
            return Err(named(&path, error));
        }
        sync_folder(&self.folder)
    }

    /// Everything that was written is on the disk: one call for the file system, since one a file would take minutes.
    #[cfg(target_os = "linux")]
    fn settle(&self, _results: &[PathBuf]) -> io::Result<()> {
        use std::os::fd::AsRawFd;
        extern "C" {
            fn syncfs(file: i32) -> i32;
        }
        let folder = File::open(&self.folder)?;
        // SAFETY: the descriptor is open, and syncfs takes nothing else.
        match unsafe { syncfs(folder.as_raw_fd()) } {
            0 => Ok(()),
            _ => Err(named(&self.folder, io::Error::last_os_error())),
        }
    }

    #[cfg(not(target_os = "linux"))]
    fn settle(&self, results: &[PathBuf]) -> io::Result<()> {
        for result in results {
            let path = self.folder.join(result);
            let synced = File::open(&path).and_then(|file| file.sync_all());
            synced.map_err(|error| named(&path, error))?;
        }
        Ok(())
    }
}

/// Whether a run began here and did not end.
pub fn is_unfinished(folder: &Path) -> bool {
    let is_there = |name: &str| fs::symlink_metadata(folder.join(name)).is_ok();
    is_there(PLAN) && !is_there(MANIFEST)
}

/// Stops where a result of the run before is one of the sources.
fn spare(folder: &Path, sources: &BTreeSet<PathBuf>) -> io::Result<()> {
    if sources.is_empty() {
        return Ok(());
    }
    for owner in [MANIFEST, PLAN].map(|name| folder.join(name)) {
        let json = read(&owner)?;
        let owned = json.iter().flat_map(results).filter_map(Json::text);
        for result in owned.filter_map(inner).map(|result| folder.join(result)) {
            if fs::canonicalize(&result).is_ok_and(|whole| sources.contains(&whole)) {
                let text = format!(
                    "names {}, which is to be read, as a result that a new run takes away; nothing was changed: --out names another folder",
                    shown(&result)
                );
                return Err(named(&owner, io::Error::new(ErrorKind::InvalidInput, text)));
            }
        }
    }
    Ok(())
}

/// A list that a manifest or a plan has.
fn list<'a>(json: &'a Json, name: &str) -> &'a [Json] {
    json.get(name).map_or(&[], Json::list)
}

/// All results that a manifest or a plan names.
fn results(json: &Json) -> impl Iterator<Item = &Json> {
    let frames = list(json, "frames").iter();
    frames
        .flat_map(|frame| list(frame, "results"))
        .chain(list(json, "aside"))
}

/// A manifest or a plan, if there is one. One that is not of this command stands in the way.
fn read(path: &Path) -> io::Result<Option<Json>> {
    let text = match fs::read(path) {
        Ok(text) => text,
        Err(error) if error.kind() == ErrorKind::NotFound => return Ok(None),
        Err(error) => return Err(named(path, error)),
    };
    let json = Json::parse(&text).filter(|json| json.get("steyrbunk").is_some());
    json.map(Some).ok_or_else(|| {
        let text = "is not of this command, and stands in the way; nothing was changed";
        named(path, io::Error::new(ErrorKind::InvalidData, text))
    })
}

/// Gone already, or its folder is.
fn is_missing(error: &io::Error) -> bool {
    matches!(error.kind(), ErrorKind::NotFound | ErrorKind::NotADirectory)
}

/// A path that leads nowhere but down.
fn inner(bytes: &[u8]) -> Option<PathBuf> {
    let path = path_of(bytes);
    let down = |part: Component| matches!(part, Component::Normal(_));
    (!bytes.is_empty() && path.components().all(down)).then_some(path)
}

#[cfg(unix)]
pub fn path_of(bytes: &[u8]) -> PathBuf {
    use std::os::unix::ffi::OsStrExt;
    std::ffi::OsStr::from_bytes(bytes).into()
}

#[cfg(not(unix))]
pub fn path_of(bytes: &[u8]) -> PathBuf {
    String::from_utf8_lossy(bytes).into_owned().into()
}

/// The passing name of a file.
fn part(path: &Path) -> PathBuf {
    let mut name = path.as_os_str().to_os_string();
    name.push(".");
    name.push(PART);
    name.into()
}

/// Names are on the disk once their folder is.
fn sync_folder(folder: &Path) -> io::Result<()> {
    let synced = File::open(folder).and_then(|folder| folder.sync_all());
    synced.map_err(|error| named(folder, error))
}

/// The error with the path that it is about.
fn named(path: &Path, error: io::Error) -> io::Error {
    io::Error::new(error.kind(), format!("{}: {error}", shown(path)))
}
