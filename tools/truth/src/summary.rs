//! What a run found, radius by radius.

use std::fmt;

use crate::look::Looked;
use crate::share::Share;
use crate::tally::{Pixel, ROUNDINGS};

/// All maps of one blur radius.
#[derive(Clone, Debug, Default)]
pub struct Radius {
    pub pixels: u64,
    pub standing: u64,
    pub broken: u64,
    /// The worst share, with the frame and the pixel.
    pub worst: Option<(Share, String, Pixel)>,
    shares: f64,
    by_roundings: [Option<Share>; ROUNDINGS],
}

#[derive(Default)]
pub struct Summary {
    pub frames: u64,
    /// Frames that the map's entry, or the reader of frame files, refuses.
    pub refused: u64,
    /// Files that could not be read.
    pub unread: u64,
    radii: [Radius; limits::BLUR as usize + 1],
}

impl Summary {
    pub fn add(&mut self, name: &str, looked: &[Looked]) {
        self.frames += 1;
        for (blur, tally) in looked {
            let radius = &mut self.radii[*blur as usize];
            radius.pixels += tally.pixels;
            radius.standing += tally.standing;
            radius.broken += tally.broken;
            radius.shares += tally.shares;
            let is_worse = |share: Share| {
                let worst = radius.worst.as_ref();
                worst.is_none_or(|(worst, _, _)| share > *worst)
            };
            if let Some((share, pixel)) = tally.worst.filter(|(share, _)| is_worse(*share)) {
                radius.worst = Some((share, name.to_string(), pixel));
            }
            let sums = radius.by_roundings.iter_mut();
            sums.zip(tally.by_roundings)
                .for_each(|(worst, share)| *worst = (*worst).max(share));
        }
    }

    pub fn radius(&self, blur: u32) -> &Radius {
        &self.radii[blur as usize]
    }

    /// Something was looked at, everything was read, and no pixel lies further off than is allowed.
    pub fn holds(&self) -> bool {
        let broken: u64 = self.radii.iter().map(|radius| radius.broken).sum();
        self.frames > 0 && self.unread == 0 && broken == 0
    }
}

impl Radius {
    /// The mean share of the pixels that stand for more than 0.
    fn mean(&self) -> f64 {
        self.shares / self.standing as f64
    }

    /// The worst shares by roundings, without those that are 0.
    fn roundings(&self) -> String {
        let shares = self.by_roundings.iter().enumerate();
        let each = shares.filter_map(|(roundings, share)| {
            let share = share.filter(|share| !share.is_zero())?;
            Some(format!("{roundings} {share}"))
        });
        each.collect::<Vec<_>>().join(", ")
    }
}

impl fmt::Display for Radius {
    fn fmt(&self, out: &mut fmt::Formatter<'_>) -> fmt::Result {
        let Radius {
            pixels,
            standing,
            broken,
            ..
        } = self;
        write!(
            out,
            "{pixels} pixels, {standing} of them with E above 0, {broken} past the bound; "
        )?;
        match &self.worst {
            Some((share, name, pixel)) if !share.is_zero() => {
                writeln!(out, "worst share {share}: {name}, {pixel}")?
            }
            _ => writeln!(out, "worst share 0")?,
        }
        match self.roundings() {
            roundings if roundings.is_empty() => Ok(()),
            roundings => writeln!(
                out,
                "  worst shares by number of roundings: {roundings}; mean share {:.4}",
                self.mean()
            ),
        }
    }
}

impl fmt::Display for Summary {
    fn fmt(&self, out: &mut fmt::Formatter<'_>) -> fmt::Result {
        let Summary {
            frames,
            refused,
            unread,
            ..
        } = self;
        writeln!(
            out,
            "{frames} frames looked at, {refused} refused and passed over, {unread} could not be read"
        )?;
        for (blur, radius) in self.radii.iter().enumerate() {
            if radius.pixels > 0 {
                write!(out, "blur {blur}: {radius}")?;
            }
        }
        Ok(())
    }
}
