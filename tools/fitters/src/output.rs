//! Lists as they are handed on: as document 01 prints them, as CSV, as JSON, as document 02's records.

use std::fmt::Write;

use steyrbunk::{printed, record, Corner, Found, Refusal, Verdict, Verdicts};

use console::json as quoted;
use frames::Problem;

use crate::gather::Frame;
use crate::options::Options;

#[derive(Clone, Copy, PartialEq, Eq)]
pub enum Format {
    List,
    Csv,
    Json,
    Record,
}

const CSV_HEAD: &str = "file,corner,x,y,strength";
/// Of an arch each camera has its answer in the table, and a line even without a corner.
const ARCH_CSV_HEAD: &str = "camera,file,answer,words,corner,x,y,strength";

impl Format {
    pub fn from_name(name: &str) -> Option<Format> {
        match name {
            "list" => Some(Format::List),
            "csv" => Some(Format::Csv),
            "json" => Some(Format::Json),
            "record" => Some(Format::Record),
            _ => None,
        }
    }

    /// The ending of a result in this format.
    pub fn ending(self) -> &'static str {
        match self {
            Format::List => "corners",
            Format::Csv => "csv",
            Format::Json => "json",
            Format::Record => record::ENDING,
        }
    }
}

impl Options {
    /// What goes before all lists that share a file or standard output. The six columns stand behind all others, and only where they
    /// are asked for: whoever reads the table by the columns that it has today finds it as it was.
    pub fn head(&self) -> String {
        let head = match self.source.is_arch() {
            true => ARCH_CSV_HEAD,
            false => CSV_HEAD,
        };
        match self.format {
            Format::Csv if self.why => {
                format!("{head},{}\n", Verdict::ALL.map(Verdict::name).join(","))
            }
            Format::Csv => format!("{head}\n"),
            _ => String::new(),
        }
    }

    /// The list of one frame.
    pub fn list(&self, frame: &Frame, found: &Found) -> Result<Vec<u8>, Refusal> {
        let text = match self.format {
            Format::List => printed(&Ok(found.clone())),
            Format::Csv => self.csv(frame, found),
            Format::Json => json(frame, found),
            Format::Record => return record::bytes(found),
        };
        Ok(text.into_bytes())
    }

    /// What stands in the place of a list that there is not; a record has no word for it, and CSV only for a camera of an arch, or
    /// where the verdicts are asked for.
    pub fn problem(&self, frame: &Frame, problem: &Problem) -> String {
        let none = self.source.unsearched();
        match (self.format, problem.refusal(), frame.camera) {
            (Format::List, Some(refusal), None) => printed(&Err(refusal)),
            (Format::List, Some(refusal), Some(_)) => format!("{refusal}\n"),
            (Format::List, None, Some(_)) => format!("no list: {problem}\n"),
            (Format::Json, Some(refusal), _) => {
                let (number, reason) = (refusal.number(), quoted(refusal.sentence().as_bytes()));
                let (whose, six) = (whose(frame), verdicts(none));
                format!("{{{whose},\"refused\":{number},\"reason\":{reason},{six}}}\n")
            }
            (Format::Json, None, _) => {
                let error = quoted(problem.to_string().as_bytes());
                format!(
                    "{{{},\"error\":{error},{}}}\n",
                    whose(frame),
                    verdicts(none)
                )
            }
            (Format::Csv, Some(refusal), Some(camera)) => {
                let answer = refusal.number().to_string();
                let front = answered(camera, frame, &answer, refusal.sentence());
                self.without_corner(&front, none)
            }
            (Format::Csv, None, Some(camera)) => {
                let front = answered(camera, frame, "", &problem.to_string());
                self.without_corner(&front, none)
            }
            (Format::Csv, _, None) if self.why => self.without_corner(&field(&frame.shown), none),
            _ => String::new(),
        }
    }

    /// A line a corner, with what tells the frame in front, and its verdicts behind if they are asked for.
    fn csv(&self, frame: &Frame, found: &Found) -> String {
        let front = match frame.camera {
            Some(camera) => answered(camera, frame, "0", ""),
            None => field(&frame.shown),
        };
        if found.corners.is_empty() && (frame.camera.is_some() || self.why) {
            return self.without_corner(&front, found.verdicts);
        }
        let (mut text, behind) = (String::new(), self.columns(found.verdicts));
        for (at, Corner { x, y, strength }) in found.corners.iter().enumerate() {
            writeln!(text, "{front},{at},{x},{y},{strength}{behind}").expect("a string takes all");
        }
        text
    }

    fn without_corner(&self, front: &str, verdicts: Option<Verdicts>) -> String {
        format!("{front},,,,{}\n", self.columns(verdicts))
    }

    /// The six columns, where they are asked for.
    fn columns(&self, verdicts: Option<Verdicts>) -> String {
        let column = |count: usize| format!(",{count}");
        match verdicts.filter(|_| self.why) {
            Some(verdicts) => verdicts.counts().map(column).concat(),
            None => String::new(),
        }
    }
}

/// The fields of a camera of an arch, with the words of a refusal or of what else went wrong.
fn answered(camera: usize, frame: &Frame, answer: &str, words: &str) -> String {
    let (file, words) = (field(&frame.shown), field(words));
    format!("{camera},{file},{answer},{words}")
}

/// Text as a field of CSV.
fn field(text: &str) -> String {
    if text.contains([',', '"', '\n', '\r']) {
        format!("\"{}\"", text.replace('"', "\"\""))
    } else {
        text.to_string()
    }
}

/// The fields that tell whose a JSON object is.
fn whose(frame: &Frame) -> String {
    let file = quoted(frame.shown.as_bytes());
    match frame.camera {
        Some(camera) => format!("\"camera\":{camera},\"file\":{file}"),
        None => format!("\"file\":{file}"),
    }
}

/// The six counts as a JSON field, which lists and manifests have of every frame.
pub fn verdicts(of: Option<Verdicts>) -> String {
    let count = |verdicts: &Verdicts, verdict: Verdict| {
        format!("\"{}\":{}", verdict.name(), verdicts.of(verdict))
    };
    let counts = of.map(|of| Verdict::ALL.map(|verdict| count(&of, verdict)).join(","));
    let value = counts.map_or("null".to_string(), |counts| format!("{{{counts}}}"));
    format!("\"verdicts\":{value}")
}

/// One line: an f32 is printed so that it reads back the same.
fn json(frame: &Frame, found: &Found) -> String {
    let corner = |Corner { x, y, strength }: &Corner| {
        format!("{{\"x\":{x},\"y\":{y},\"strength\":{strength}}}")
    };
    let corners: Vec<String> = found.corners.iter().map(corner).collect();
    format!(
        "{{{},\"working_width\":{},\"working_height\":{},\"count\":{},{},\"corners\":[{}]}}\n",
        whose(frame),
        found.width,
        found.height,
        corners.len(),
        verdicts(found.verdicts),
        corners.join(",")
    )
}
