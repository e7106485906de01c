//! The words of a call: flags, their values, and paths.

use std::ffi::OsString;
use std::io::{self, IsTerminal, Write};
use std::path::PathBuf;
use std::process::{self, ExitCode};
use std::str::FromStr;
use std::{env, vec};

/// Words that a command cannot use, or the wish for its help.
#[derive(Debug)]
pub enum Usage {
    Help,
    Wrong(String),
}

impl Usage {
    pub fn wrong<T>(text: impl Into<String>) -> Result<T, Usage> {
        Err(Usage::Wrong(text.into()))
    }
}

pub enum Word {
    Flag(String),
    Path(PathBuf),
}

pub struct Words {
    words: vec::IntoIter<OsString>,
    /// After `--` everything is a path.
    paths: bool,
    /// The value of a flag that was written with `=`, and the flag.
    joined: Option<(String, OsString)>,
}

impl Words {
    pub fn of_call() -> Words {
        let words: Vec<OsString> = env::args_os().skip(1).collect();
        Words {
            words: words.into_iter(),
            paths: false,
            joined: None,
        }
    }

    /// The next flag or path; the wish for help is answered here.
    pub fn word(&mut self) -> Result<Option<Word>, Usage> {
        if let Some((flag, _)) = self.joined.take() {
            return Usage::wrong(format!("{flag} takes no value"));
        }
        let Some(word) = self.words.next() else {
            return Ok(None);
        };
        match word.to_str() {
            Some("--help" | "-h") if !self.paths => Err(Usage::Help),
            Some("--") if !self.paths => {
                self.paths = true;
                self.word()
            }
            Some(word) if word.starts_with("--") && !self.paths => {
                let (flag, value) = match word.split_once('=') {
                    Some((flag, value)) => (flag, Some(value)),
                    None => (word, None),
                };
                self.joined = value.map(|value| (flag.to_string(), value.into()));
                Ok(Some(Word::Flag(flag.to_string())))
            }
            Some(word) if word.len() > 1 && word.starts_with('-') && !self.paths => Usage::wrong(
                format!("{word} is not known; a path that begins so goes after --"),
            ),
            _ => Ok(Some(Word::Path(word.into()))),
        }
    }

    /// The value after a flag; `wanted` says what it is.
    pub fn value<T: FromStr>(&mut self, flag: &str, wanted: &str) -> Result<T, Usage> {
        let word = self.path(flag, wanted)?;
        let value = word.to_str().and_then(|word| word.parse().ok());
        value
            .ok_or_else(|| Usage::Wrong(format!("{flag} wants {wanted}, not '{}'", word.display())))
    }

    /// The path after a flag.
    pub fn path(&mut self, flag: &str, wanted: &str) -> Result<PathBuf, Usage> {
        let joined = self.joined.take().map(|(_, value)| value);
        let word = joined.or_else(|| self.words.next()).map(PathBuf::from);
        word.ok_or_else(|| Usage::Wrong(format!("{flag} wants {wanted}")))
    }
}

/// Writes text to standard output.
pub fn say(text: &str) {
    put(text.as_bytes());
}

/// Writes to standard output; where that cannot be the command ends, with a word unless it is only that nobody reads any more.
pub fn put(bytes: &[u8]) {
    let mut out = io::stdout().lock();
    if let Err(error) = out.write_all(bytes).and_then(|()| out.flush()) {
        if error.kind() != io::ErrorKind::BrokenPipe {
            eprintln!("standard output: {error}");
        }
        process::exit(1);
    }
}

/// Bytes that are no text are not for a terminal.
pub fn no_terminal(what: &str, file: &str) -> Result<(), Usage> {
    if io::stdout().is_terminal() {
        return Usage::wrong(format!(
            "{what} is no text: send it to a file, as in > {file}"
        ));
    }
    Ok(())
}

/// Runs a command: help goes to standard output, wrong words leave with 2, else the command's own status.
pub fn run(
    name: &str,
    help: &str,
    command: impl FnOnce(Words) -> Result<ExitCode, Usage>,
) -> ExitCode {
    match command(Words::of_call()) {
        Ok(code) => code,
        Err(Usage::Help) => {
            say(help);
            ExitCode::SUCCESS
        }
        Err(Usage::Wrong(text)) => {
            eprintln!("{name}: {text}\nTry {name} --help.");
            ExitCode::from(2)
        }
    }
}
