//! A progress line on standard error.

use std::io::{self, IsTerminal, Write};
use std::time::{Duration, Instant};

/// Rewrites one line on a terminal; elsewhere a line goes out now and then.
pub struct Progress {
    total: Option<u64>,
    /// What is counted.
    things: &'static str,
    started: Instant,
    shown: Option<Instant>,
    terminal: bool,
}

impl Progress {
    pub fn new(total: Option<u64>, things: &'static str) -> Progress {
        Progress {
            total,
            things,
            started: Instant::now(),
            shown: None,
            terminal: io::stderr().is_terminal(),
        }
    }

    pub fn seconds(&self) -> f64 {
        self.started.elapsed().as_secs_f64()
    }

    /// So many are done; shown if it is time to.
    pub fn show(&mut self, done: u64, note: &str) {
        let pause = Duration::from_millis(if self.terminal { 200 } else { 10_000 });
        let since = self.shown.unwrap_or(self.started);
        if since.elapsed() < pause {
            return;
        }
        self.shown = Some(Instant::now());
        let of = self
            .total
            .map_or(String::new(), |total| format!(" of {total}"));
        let rate = done as f64 / self.seconds().max(1e-9);
        let left = self.total.map_or(String::new(), |total| {
            let seconds = total.saturating_sub(done) as f64 / rate.max(1e-9);
            format!(", {} left", duration(seconds))
        });
        let things = self.things;
        let line = format!("{done}{of} {things}, {rate:.0} a second{left}{note}");
        if self.terminal {
            eprint!("\r{line}\x1b[K");
            let _ = io::stderr().flush();
        } else {
            eprintln!("{line}");
        }
    }

    /// Takes the line away, so that what is said next stands alone.
    pub fn clear(&mut self) {
        if self.terminal && self.shown.take().is_some() {
            eprint!("\r\x1b[K");
        }
    }
}

/// A time as a person says it.
fn duration(seconds: f64) -> String {
    let seconds = seconds.round() as u64;
    match (seconds / 3_600, seconds / 60 % 60, seconds % 60) {
        (0, 0, seconds) => format!("{seconds} s"),
        (0, minutes, seconds) => format!("{minutes} min {seconds} s"),
        (hours, minutes, _) => format!("{hours} h {minutes} min"),
    }
}
