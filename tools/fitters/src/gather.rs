//! Which frames a call means, and where the results of each go.

use std::collections::HashMap;
use std::path::{absolute, Path, PathBuf};
use std::{fs, io};

use console::{shown, Usage};
use steyrbunk::arch;

use crate::options::{Options, Place};
use crate::site;
use crate::source::Source;

/// The path that means standard input, and what its results are called.
pub const INPUT: &str = "-";
const INPUT_NAME: &str = "stdin";

/// A frame, or the record of one, that is still to be read.
pub struct Frame {
    /// Nothing for standard input.
    pub path: Option<PathBuf>,
    /// Its name as it is shown.
    pub shown: String,
    /// Its name below the folder that was named: its results begin with it.
    pub name: PathBuf,
    /// The number of its camera in an arch, from 1.
    pub camera: Option<usize>,
}

impl Frame {
    /// Its path as a word of a message.
    pub fn spoken(&self) -> &Path {
        self.path.as_deref().unwrap_or(Path::new(INPUT_NAME))
    }

    /// Whose list or message it is, for a person.
    pub fn told(&self) -> String {
        match self.camera {
            Some(camera) => format!("camera {camera}: {}", self.shown),
            None => self.shown.clone(),
        }
    }

    /// The same for a camera of an arch, whose number goes behind the name: two cameras may have files of one name, or one file.
    fn of_camera(&self, camera: usize) -> Frame {
        let mut name = self.name.clone().into_os_string();
        name.push(format!(".{camera}"));
        Frame {
            path: self.path.clone(),
            shown: self.shown.clone(),
            name: name.into(),
            camera: Some(camera),
        }
    }

    /// Its results, by their endings.
    pub fn results(&self, endings: &[&str]) -> Vec<PathBuf> {
        let result = |ending: &&str| {
            let mut name = self.name.clone().into_os_string();
            name.push(".");
            name.push(ending);
            name.into()
        };
        endings.iter().map(result).collect()
    }

    /// Where it is read from, as a whole path.
    pub fn whole_path(&self) -> Vec<u8> {
        let path = self.path.as_deref().unwrap_or(Path::new(INPUT));
        let whole = if self.path.is_some() {
            absolute(path)
        } else {
            Ok(path.into())
        };
        let whole = whole.unwrap_or_else(|_| path.to_path_buf());
        whole.into_os_string().into_encoded_bytes()
    }
}

/// The frames whose results go to one folder.
#[derive(Default)]
pub struct Group {
    /// Nothing for standard output.
    pub folder: Option<PathBuf>,
    /// Folders below it that may hold the results of an earlier run.
    pub below: Vec<PathBuf>,
    /// The folders that were named, as whole paths.
    pub named: Vec<PathBuf>,
    pub frames: Vec<Frame>,
    /// What could not be looked into.
    pub problems: Vec<String>,
}

/// The frames of a call by the folder of their results. Only folders are read.
pub fn gather(options: &Options) -> Result<Vec<Group>, Usage> {
    let Options {
        source,
        paths,
        place,
        ..
    } = options;
    let mut groups: Vec<Group> = Vec::new();
    if !matches!(place, Some(Place::Beside)) {
        let folder = match place {
            Some(Place::Folder(folder)) => Some(folder.clone()),
            _ => None,
        };
        groups.push(Group {
            folder,
            ..Group::default()
        });
    }
    for (at, path) in paths.iter().enumerate() {
        let mut found = look(*source, path, paths.len() > 1);
        if let Source::Arch(cameras) = source {
            found.number(at, *cameras);
        }
        match place {
            Some(Place::Beside) => beside(&mut groups, path, found)?,
            _ => groups[0].join(found),
        }
    }
    if source.is_arch() {
        return one(groups);
    }
    groups.iter_mut().for_each(Group::order);
    let endings = options.endings();
    let distinct = |group| distinct(group, &endings);
    groups.iter().try_for_each(distinct)?;
    Ok(groups)
}

/// An arch is answered in one call, and has one manifest.
fn one(groups: Vec<Group>) -> Result<Vec<Group>, Usage> {
    match groups.len() {
        1 => Ok(groups),
        _ => Usage::wrong("--beside wants all files of an arch in one folder; try --out"),
    }
}

impl Group {
    fn join(&mut self, other: Group) {
        self.named.extend(other.named);
        self.frames.extend(other.frames);
        self.problems.extend(other.problems);
    }

    /// The files that are to be read, as the system knows them.
    pub fn sources(&self) -> impl Iterator<Item = PathBuf> + '_ {
        let paths = self.frames.iter().filter_map(|frame| frame.path.as_ref());
        paths.filter_map(|path| fs::canonicalize(path).ok())
    }

    /// Gives a file of an arch its camera, by its place in the call, or all cameras that it is to hold. Where that is a number
    /// of cameras that is refused, it stands for as many as can be told of.
    fn number(&mut self, at: usize, together: Option<usize>) {
        let cameras = match together {
            Some(cameras) => 1..=cameras.clamp(1, arch::MOST),
            None => at + 1..=at + 1,
        };
        let file = &self.frames;
        self.frames = cameras
            .flat_map(|camera| file.iter().map(move |frame| frame.of_camera(camera)))
            .collect();
    }

    /// By name; a frame that was named twice is taken once where it has results.
    fn order(&mut self) {
        self.frames.sort_by(|a, b| a.name.cmp(&b.name));
        if self.folder.is_some() {
            self.frames
                .dedup_by(|a, b| a.name == b.name && a.whole_path() == b.whole_path());
        }
    }
}

/// A path as it was named: standard input, a file, or a folder with all that is in it and below.
fn look(source: Source, path: &Path, several: bool) -> Group {
    if path == Path::new(INPUT) {
        return Group {
            frames: vec![Frame {
                path: None,
                shown: "standard input".to_string(),
                name: INPUT_NAME.into(),
                camera: None,
            }],
            ..Group::default()
        };
    }
    if source.is_arch() || !fs::metadata(path).is_ok_and(|data| data.is_dir()) {
        let name = path
            .file_name()
            .map_or_else(|| own_name(path), PathBuf::from);
        return Group {
            frames: vec![Frame {
                path: Some(path.into()),
                shown: shown(path),
                name,
                camera: None,
            }],
            problems: unfinished(source, &[folder_of(path)]),
            ..Group::default()
        };
    }
    let found = console::inside(path, source.endings());
    // Of several folders each has its own name in front, so that two cameras never share one.
    let front = if several {
        own_name(path)
    } else {
        PathBuf::new()
    };
    let frame = |file: PathBuf| Frame {
        shown: shown(&file),
        name: front.join(file.strip_prefix(path).unwrap_or(&file)),
        path: Some(file),
        camera: None,
    };
    let mut problems: Vec<String> = found
        .unread
        .iter()
        .map(|(path, error)| format!("{}: {error}", shown(path)))
        .collect();
    if found.files.is_empty() && problems.is_empty() {
        problems.push(format!("{}: {}", shown(path), source.none()));
    }
    problems.extend(unfinished(source, &found.folders));
    Group {
        folder: None,
        below: found
            .folders
            .into_iter()
            .filter(|folder| folder != path)
            .collect(),
        named: absolute(path).into_iter().collect(),
        frames: found.files.into_iter().map(frame).collect(),
        problems,
    }
}

/// What a run that is not over wrote does not count: of records that is told, since they may lie there under their own names.
fn unfinished(source: Source, folders: &[PathBuf]) -> Vec<String> {
    let told = |folder: &PathBuf| {
        let text = "a run.plan and no run.json: a run there is not over or was cut off, and no record of it counts";
        format!("{}: {text}", shown(folder))
    };
    let folders = folders.iter().filter(|folder| site::is_unfinished(folder));
    match source {
        Source::Frames | Source::Arch(_) => Vec::new(),
        Source::Records => folders.map(told).collect(),
    }
}

/// The folder that a file is in.
fn folder_of(file: &Path) -> PathBuf {
    let parent = file
        .parent()
        .filter(|parent| !parent.as_os_str().is_empty());
    parent.unwrap_or(Path::new(".")).to_path_buf()
}

/// The last part of a folder's whole path.
fn own_name(folder: &Path) -> PathBuf {
    let whole = fs::canonicalize(folder).unwrap_or_else(|_| folder.to_path_buf());
    whole.file_name().map_or_else(PathBuf::new, PathBuf::from)
}

/// Results beside the frames: a folder that was named has its own manifest, and so has the folder of a file.
fn beside(groups: &mut Vec<Group>, path: &Path, mut found: Group) -> Result<(), Usage> {
    if path == Path::new(INPUT) {
        return Usage::wrong("standard input has no place beside it; try --out");
    }
    let folder = if found.named.is_empty() {
        folder_of(path)
    } else {
        // Names below the folder itself: it has its own manifest.
        for frame in &mut found.frames {
            let below = frame
                .path
                .as_deref()
                .and_then(|file| file.strip_prefix(path).ok());
            frame.name = below.map_or_else(PathBuf::new, Path::to_path_buf);
        }
        path.to_path_buf()
    };
    let same = |a: &Path, b: &Path| match (fs::canonicalize(a), fs::canonicalize(b)) {
        (Ok(a), Ok(b)) => a == b,
        _ => a == b,
    };
    let at = groups.iter().position(|group| {
        group
            .folder
            .as_deref()
            .is_some_and(|other| same(other, &folder))
    });
    let group = match at {
        Some(at) => &mut groups[at],
        None => {
            groups.push(Group {
                folder: Some(folder),
                ..Group::default()
            });
            groups.last_mut().expect("it was just put there")
        }
    };
    group.below.append(&mut found.below);
    group.join(found);
    Ok(())
}

/// Two frames must not write the same result: the second would pass for the first.
fn distinct(group: &Group, endings: &[&str]) -> Result<(), Usage> {
    let Some(folder) = &group.folder else {
        return Ok(());
    };
    let mut owners = HashMap::new();
    for frame in &group.frames {
        for result in frame.results(endings) {
            let path = shown(&folder.join(&result));
            if let Some(other) = owners.insert(result, &frame.shown) {
                return Usage::wrong(format!(
                    "{other} and {} would both write {path}; name their folders instead",
                    frame.shown
                ));
            }
        }
    }
    Ok(())
}

/// Makes the folder of the results, if it is not there.
pub fn make(folder: &Path) -> io::Result<()> {
    fs::create_dir_all(folder)
        .map_err(|error| io::Error::new(error.kind(), format!("{}: {error}", shown(folder))))
}
