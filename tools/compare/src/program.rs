//! The proved program `corners` itself, run as a person runs it.

use std::io::{self, Write};
use std::path::PathBuf;
use std::process::{Command, Stdio};

use steyrbunk::Corner;

use crate::difference::Difference;
use crate::gaussian::{Distances, Places};

#[derive(Clone)]
pub struct Program {
    pub path: PathBuf,
}

impl Program {
    /// What it prints for a file.
    pub fn print(&self, file: &[u8]) -> io::Result<Vec<u8>> {
        let mut child = Command::new(&self.path)
            .stdin(Stdio::piped())
            .stdout(Stdio::piped())
            .stderr(Stdio::null())
            .spawn()?;
        let mut input = child.stdin.take().expect("piped");
        // It reads no more than it has room for, and need not wait for the rest.
        match input.write_all(file) {
            Err(error) if error.kind() != io::ErrorKind::BrokenPipe => return Err(error),
            _ => drop(input),
        }
        Ok(child.wait_with_output()?.stdout)
    }

    /// How what it prints differs from the Rust's list as it would be printed; Gaussian places may differ as they may in a list.
    pub fn hold(&self, file: &[u8], theirs: &[u8], places: Option<Places>) -> Option<Difference> {
        let ours = match self.print(file) {
            Ok(ours) => ours,
            Err(error) => format!("{}: {error}", console::shown(&self.path)).into_bytes(),
        };
        if ours == theirs {
            return None;
        }
        let (theirs, ours) = (lines(theirs), lines(&ours));
        let mut distances = Distances::default();
        (0..theirs.len().max(ours.len())).find_map(|at| {
            let line = |lines: &[String]| lines.get(at).cloned().unwrap_or_default();
            let (theirs, ours) = (line(&theirs), line(&ours));
            let near = places.as_ref().is_some_and(|places| {
                let corners = (corner(&theirs), corner(&ours));
                let (Some(theirs), Some(ours)) = corners else {
                    return false;
                };
                theirs.strength.to_bits() == ours.strength.to_bits()
                    && places.near(&theirs, &ours, &mut distances) == [true; 2]
            });
            (theirs != ours && !near).then(|| Difference::Printed {
                line: at + 1,
                theirs,
                ours,
            })
        })
    }
}

/// The lines with their ends, so that a cut one is none.
fn lines(text: &[u8]) -> Vec<String> {
    let text = String::from_utf8_lossy(text);
    text.split_inclusive('\n')
        .map(|line| line.escape_debug().to_string())
        .collect()
}

/// A corner's line.
fn corner(line: &str) -> Option<Corner> {
    let line = line.strip_suffix("\\n")?;
    let number = |word: &str| {
        let upper = |byte: u8| byte.is_ascii_digit() || (b'A'..=b'F').contains(&byte);
        let whole = word.len() == 8 && word.bytes().all(upper);
        whole.then(|| u32::from_str_radix(word, 16).ok().map(f32::from_bits))?
    };
    let words: Vec<f32> = line.split(' ').map(number).collect::<Option<_>>()?;
    match words[..] {
        [x, y, strength] => Some(Corner { x, y, strength }),
        _ => None,
    }
}
