//! What a manifest says of a run and of each of its frames.

use std::path::PathBuf;
use std::time::{Duration, SystemTime, UNIX_EPOCH};

use console::json;
use frames::Problem;
use steyrbunk::{PeakFit, Settings, Verdicts};

use crate::output::verdicts;

/// A frame of a run.
pub struct Record {
    /// Its name below the folder that was named, as its results begin.
    pub name: Vec<u8>,
    /// Where it was read from, a whole path.
    pub path: Vec<u8>,
    /// Its camera's number in an arch.
    pub camera: Option<usize>,
    pub read: Option<Read>,
    pub end: End,
    /// What became of its candidates, where that is known.
    pub verdicts: Option<Verdicts>,
    /// What that may mean, if it was asked for.
    pub why: Option<String>,
    pub results: Vec<PathBuf>,
    pub time: Duration,
}

/// The bytes that were read.
#[derive(Clone)]
pub struct Read {
    pub bytes: usize,
    pub sha256: String,
    /// Of a frame file that kept its own.
    pub settings: Option<Settings>,
}

/// How it ended.
pub enum End {
    Found {
        width: usize,
        height: usize,
        count: usize,
    },
    Problem(Problem),
    /// The run before had it, and it is not there any more.
    Gone,
}

/// The words for a frame that is gone.
pub const GONE: &str = "gone: the run before had it";

impl Record {
    fn json(&self) -> String {
        let mut fields = vec![
            format!("\"name\":{}", json(&self.name)),
            format!("\"path\":{}", json(&self.path)),
        ];
        if let Some(camera) = self.camera {
            fields.push(format!("\"camera\":{camera}"));
        }
        if let Some(read) = &self.read {
            fields.push(format!("\"bytes\":{}", read.bytes));
            fields.push(format!("\"sha256\":{}", json(read.sha256.as_bytes())));
            if let Some(own) = &read.settings {
                fields.push(format!("\"settings\":{}", settings(own)));
            }
        }
        let (answer, words) = match &self.end {
            End::Found { .. } => ("0".to_string(), "accepted, all corners listed".to_string()),
            End::Problem(problem) => (
                problem
                    .refusal()
                    .map_or("null".to_string(), |refusal| refusal.number().to_string()),
                problem.to_string(),
            ),
            End::Gone => ("null".to_string(), GONE.to_string()),
        };
        fields.push(format!("\"answer\":{answer}"));
        fields.push(format!("\"words\":{}", json(words.as_bytes())));
        if let End::Found { width, height, .. } = &self.end {
            fields.push(format!(
                "\"working_width\":{width},\"working_height\":{height}"
            ));
        }
        let count = match self.end {
            End::Found { count, .. } => count,
            _ => 0,
        };
        fields.push(format!("\"count\":{count}"));
        fields.push(verdicts(self.verdicts));
        if let Some(why) = &self.why {
            fields.push(format!("\"why\":{}", json(why.as_bytes())));
        }
        if matches!(self.end, End::Gone) {
            fields.push("\"gone\":true".to_string());
        }
        fields.push(format!("\"results\":{}", results(&self.results)));
        fields.push(format!("\"seconds\":{:.6}", self.time.as_secs_f64()));
        format!("{{{}}}", fields.join(","))
    }
}

/// The manifest of a run: a line a frame.
pub fn manifest(
    started: SystemTime,
    named: Option<Settings>,
    replaced: bool,
    problems: &[String],
    records: &[&Record],
) -> String {
    let problems: Vec<String> = problems.iter().map(|text| json(text.as_bytes())).collect();
    let frames: Vec<String> = records.iter().map(|record| record.json()).collect();
    format!(
        "{{\"steyrbunk\":{},\n\"started\":{},\n\"finished\":{},\n\"settings\":{},\n\"override\":{replaced},\n\"problems\":[{}],\n\"frames\":[\n{}\n]}}\n",
        json(env!("CARGO_PKG_VERSION").as_bytes()),
        json(instant(started).as_bytes()),
        json(instant(SystemTime::now()).as_bytes()),
        named.map_or("null".to_string(), |named| settings(&named)),
        problems.join(","),
        frames.join(",\n")
    )
}

/// What a run is about to write: as much of a manifest as the next run needs.
pub fn plan<'a>(
    frames: impl Iterator<Item = (&'a [u8], &'a [u8], &'a [PathBuf])>,
    aside: &[PathBuf],
) -> String {
    let frames: Vec<String> = frames
        .map(|(name, path, files)| {
            format!(
                "{{\"name\":{},\"path\":{},\"results\":{}}}",
                json(name),
                json(path),
                results(files)
            )
        })
        .collect();
    format!(
        "{{\"steyrbunk\":{},\n\"unfinished\":true,\n\"aside\":{},\n\"frames\":[\n{}\n]}}\n",
        json(env!("CARGO_PKG_VERSION").as_bytes()),
        results(aside),
        frames.join(",\n")
    )
}

fn results(files: &[PathBuf]) -> String {
    let files: Vec<String> = files
        .iter()
        .map(|file| json(file.as_os_str().as_encoded_bytes()))
        .collect();
    format!("[{}]", files.join(","))
}

fn settings(of: &Settings) -> String {
    let fit = match of.peak_fit {
        PeakFit::Parabolic => "parabolic",
        PeakFit::Gaussian => "gaussian",
    };
    // JSON has no NaN and no infinity.
    let threshold = match of.threshold_rel {
        value if value.is_finite() => value.to_string(),
        value => format!("\"{value}\""),
    };
    format!(
        "{{\"ray_radius\":{},\"image_upsample\":{},\"response_blur_radius\":{},\"peak_fit\":\"{fit}\",\"threshold_rel\":{threshold},\"nms_radius\":{},\"min_cluster_size\":{}}}",
        of.ray_radius, of.image_upsample, of.response_blur_radius, of.nms_radius, of.min_cluster_size
    )
}

/// The time in Greenwich, to the second.
fn instant(time: SystemTime) -> String {
    let seconds = time
        .duration_since(UNIX_EPOCH)
        .unwrap_or_default()
        .as_secs();
    let (days, rest) = (seconds / 86_400, seconds % 86_400);
    // Years counted from March, in the 400 years that repeat.
    let shifted = days + 719_468;
    let (era, day) = (shifted / 146_097, shifted % 146_097);
    let year = (day - day / 1_460 + day / 36_524 - day / 146_096) / 365;
    let day = day - (365 * year + year / 4 - year / 100);
    let month = (5 * day + 2) / 153;
    let date = day - (153 * month + 2) / 5 + 1;
    let month = if month < 10 { month + 3 } else { month - 9 };
    let year = year + era * 400 + u64::from(month <= 2);
    let (hour, minute, second) = (rest / 3_600, rest % 3_600 / 60, rest % 60);
    format!("{year:04}-{month:02}-{date:02}T{hour:02}:{minute:02}:{second:02}Z")
}

#[cfg(test)]
mod tests {
    use super::instant;
    use std::time::{Duration, UNIX_EPOCH};

    #[test]
    fn instants() {
        for (seconds, text) in [
            (0, "1970-01-01T00:00:00Z"),
            (951_782_399, "2000-02-28T23:59:59Z"),
            (951_782_400, "2000-02-29T00:00:00Z"),
            (1_709_251_200, "2024-03-01T00:00:00Z"),
            (1_794_700_799, "2026-11-14T23:59:59Z"),
            (4_107_542_400, "2100-03-01T00:00:00Z"),
        ] {
            assert_eq!(instant(UNIX_EPOCH + Duration::from_secs(seconds)), text);
        }
    }
}
