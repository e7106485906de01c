//! What a run found, counted.

use std::collections::BTreeMap;
use std::fmt;

use judge::TOO_SMALL;
use steyrbunk::Verdict;

use crate::gaussian::{Distances, CURVATURES, DOUBLINGS, FLAT};
use crate::pair::Held;

/// What a class between two ends is called; the last has none.
fn range(at: usize, ends: &[f64], shown: impl Fn(&f64) -> String) -> String {
    match ends.get(at) {
        Some(end) => format!("below {}", shown(end)),
        None => format!("{} and up", shown(&ends[at - 1])),
    }
}

#[derive(Default)]
pub struct Summary {
    /// Arches, whose cameras count as frames.
    pub arches: u64,
    pub frames: u64,
    pub differ: u64,
    /// Frames that could not be read.
    pub unread: u64,
    corners: u64,
    /// Candidates of the accepted frames by verdict, as the judge counts them.
    verdicts: [u64; Verdict::ALL.len()],
    refused: BTreeMap<u32, u64>,
    /// Refused frames whose maps were compared all the same.
    maps_alone: u64,
    distances: Distances,
}

impl Summary {
    pub fn add(&mut self, held: &Held) {
        self.frames += 1;
        self.differ += u64::from(!held.differences.is_empty());
        self.distances.join(&held.distances);
        self.maps_alone += u64::from(held.map_alone);
        match &held.theirs {
            Ok(found) => {
                self.corners += found.corners.len() as u64;
                let counts = found.verdicts.unwrap_or_default().counts();
                let sums = self.verdicts.iter_mut();
                sums.zip(counts)
                    .for_each(|(sum, count)| *sum += count as u64);
            }
            Err(number) => *self.refused.entry(*number).or_default() += 1,
        }
    }

    /// Something was compared, everything was read, and nothing differs that may not.
    pub fn agreed(&self) -> bool {
        self.frames > 0 && self.differ == 0 && self.unread == 0
    }

    /// What became of all candidates.
    fn candidates(&self, out: &mut fmt::Formatter<'_>) -> fmt::Result {
        let all: u64 = self.verdicts.iter().sum();
        let each = Verdict::ALL.iter().zip(self.verdicts);
        let each: Vec<String> = each
            .map(|(verdict, sum)| format!("{} {sum}", verdict.words()))
            .collect();
        writeln!(out, "candidates: {all}; {}", each.join(", "))
    }

    fn distances(&self, out: &mut fmt::Formatter<'_>) -> fmt::Result {
        let (equal, unequal) = (self.distances.equal, self.distances.all().coordinates);
        writeln!(
            out,
            "Gaussian coordinates: {equal} equal to the bit, {unequal} not"
        )?;
        if unequal == 0 {
            return Ok(());
        }
        self.by_curvature(out)?;
        self.by_doublings(out)
    }

    fn by_curvature(&self, out: &mut fmt::Formatter<'_>) -> fmt::Result {
        let Distances {
            classes, product, ..
        } = &self.distances;
        writeln!(
            out,
            "Curvature says how sharply a corner's peak falls off along an axis: the flatter it is, the less a place
along that axis means, and the further the last bits of two logarithms move it. A step is the smallest
change that a printed number can make."
        )?;
        writeln!(out, "  curvature     coordinates  greatest distance")?;
        for (at, class) in classes
            .iter()
            .enumerate()
            .filter(|(_, class)| class.coordinates > 0)
        {
            let range = range(at, &CURVATURES, |end| format!("{end:.0e}"));
            let (pixels, steps) = (class.pixels, class.steps);
            writeln!(
                out,
                "  {range:12} {:12}  {pixels:.2e} input pixels, {steps} steps",
                class.coordinates
            )?;
        }
        writeln!(out, "  greatest distance times curvature: {product:.2e}")
    }

    fn by_doublings(&self, out: &mut fmt::Formatter<'_>) -> fmt::Result {
        writeln!(
            out,
            "Of peaks with a curvature of {FLAT} and up, by how often a peak's lower neighbour is to be doubled to be as
great, in working pixels: how far ours lie from the Rust's on average, and toward the greater neighbour."
        )?;
        writeln!(
            out,
            "  doublings     coordinates  mean distance  mean lean  greatest"
        )?;
        let named = |(at, lean)| (range(at, &DOUBLINGS, f64::to_string), lean);
        let classes = self.distances.leans.iter().copied().enumerate().map(named);
        let all = ("all".to_string(), self.distances.lean());
        for (name, lean) in classes
            .chain([all])
            .filter(|(_, lean)| lean.coordinates > 0)
        {
            writeln!(
                out,
                "  {name:12} {:12}  {:13.2e}  {:+9.2e}  {:8.2e}",
                lean.coordinates,
                lean.mean(lean.apart),
                lean.mean(lean.toward),
                lean.greatest
            )?;
        }
        Ok(())
    }
}

impl fmt::Display for Summary {
    fn fmt(&self, out: &mut fmt::Formatter<'_>) -> fmt::Result {
        let Summary {
            frames,
            differ,
            unread,
            corners,
            ..
        } = self;
        let refused: u64 = self.refused.values().sum();
        if self.arches > 0 {
            writeln!(out, "{} arches, each camera a frame:", self.arches)?;
        }
        writeln!(
            out,
            "{frames} frames: {} agreed, {differ} differ, {unread} could not be read",
            frames - differ
        )?;
        writeln!(
            out,
            "the Rust: {} with {corners} corners, {refused} refused by documents 01 and 02",
            frames - refused
        )?;
        if refused > 0 {
            let each = self
                .refused
                .iter()
                .map(|(number, count)| format!("{number}: {count}"));
            writeln!(
                out,
                "refused by number: {}",
                each.collect::<Vec<_>>().join(", ")
            )?;
        }
        if self.maps_alone > 0 {
            writeln!(
                out,
                "too small for a list: {}, refused {TOO_SMALL}; their maps were compared",
                self.maps_alone
            )?;
        }
        self.candidates(out)?;
        self.distances(out)
    }
}
