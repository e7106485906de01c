//! Why a candidate was dropped or that it was kept, how many there are of each, and which candidate is which.
//!
//! A candidate is a working pixel at least [`Settings::border`] from every edge. The rules are tried in the order of
//! [`Verdict::ALL`], and the first that fails is the verdict.

use std::ops::Range;

use crate::lent::{self, View};
use crate::settings::Settings;

/// The first rule that a candidate fails, or that it is kept.
#[derive(Clone, Copy, Debug, PartialEq, Eq, PartialOrd, Ord)]
pub enum Verdict {
    /// Its value is not above the floor, the threshold times the map's greatest value.
    NotAbove,
    /// A value in its suppression window is greater.
    Beaten,
    /// The positive values in that window, its own not counted, do not reach the least count.
    TooFew,
    /// The picture around it is too flat to tell a saddle: the spread of its curvatures times the squared ray is below 1.
    TooFlat,
    /// The picture around it bends, and not as a saddle does: an edge, a line, a spot.
    WrongCurvature,
    /// It is a corner.
    Kept,
}

impl Verdict {
    /// In the order of the rules, which is that of the counts and numbers of the C interface.
    pub const ALL: [Verdict; 6] = [
        Verdict::NotAbove,
        Verdict::Beaten,
        Verdict::TooFew,
        Verdict::TooFlat,
        Verdict::WrongCurvature,
        Verdict::Kept,
    ];

    /// 0 to 5, as in the C interface.
    pub fn number(self) -> u32 {
        self as u32
    }

    pub fn from_number(number: u32) -> Option<Verdict> {
        let is_its = |verdict: &Verdict| verdict.number() == number;
        Verdict::ALL.into_iter().find(is_its)
    }

    /// Its name where it is a field: in [`Verdicts`], in JSON, in CSV, in Python.
    pub fn name(self) -> &'static str {
        match self {
            Verdict::NotAbove => "not_above",
            Verdict::Beaten => "beaten",
            Verdict::TooFew => "too_few",
            Verdict::TooFlat => "too_flat",
            Verdict::WrongCurvature => "wrong_curvature",
            Verdict::Kept => "kept",
        }
    }

    /// What it says, for a person.
    pub fn words(self) -> &'static str {
        match self {
            Verdict::NotAbove => "not above the floor",
            Verdict::Beaten => "beaten by a neighbour",
            Verdict::TooFew => "too few positive neighbours",
            Verdict::TooFlat => "too flat",
            Verdict::WrongCurvature => "wrong curvature",
            Verdict::Kept => "kept",
        }
    }
}

/// How many candidates have each verdict. They add up to all candidates of a frame that was searched, which has at least one; with a
/// refusal there are six zeros.
#[derive(Clone, Copy, Debug, Default, PartialEq, Eq)]
pub struct Verdicts {
    pub not_above: usize,
    pub beaten: usize,
    pub too_few: usize,
    pub too_flat: usize,
    pub wrong_curvature: usize,
    /// Corners found, whether a list had room for them or not.
    pub kept: usize,
}

impl Verdicts {
    /// Six zeros: nothing was searched.
    pub const NONE: Verdicts = Verdicts {
        not_above: 0,
        beaten: 0,
        too_few: 0,
        too_flat: 0,
        wrong_curvature: 0,
        kept: 0,
    };

    /// All candidates: (W − 2·border)(H − 2·border).
    pub fn total(&self) -> usize {
        self.counts().iter().sum()
    }

    /// In the order of [`Verdict::ALL`].
    pub fn counts(&self) -> [usize; 6] {
        Verdict::ALL.map(|verdict| self.of(verdict))
    }

    pub fn of(&self, verdict: Verdict) -> usize {
        match verdict {
            Verdict::NotAbove => self.not_above,
            Verdict::Beaten => self.beaten,
            Verdict::TooFew => self.too_few,
            Verdict::TooFlat => self.too_flat,
            Verdict::WrongCurvature => self.wrong_curvature,
            Verdict::Kept => self.kept,
        }
    }
}

impl From<[usize; 6]> for Verdicts {
    /// From counts in the order of [`Verdict::ALL`].
    fn from(counts: [usize; 6]) -> Verdicts {
        let [not_above, beaten, too_few, too_flat, wrong_curvature, kept] = counts;
        Verdicts {
            not_above,
            beaten,
            too_few,
            too_flat,
            wrong_curvature,
            kept,
        }
    }
}

/// A working pixel that was judged.
#[derive(Clone, Copy, Debug, PartialEq, Eq)]
pub struct Candidate {
    pub x: usize,
    pub y: usize,
    pub verdict: Verdict,
}

/// The candidates of a map, each to be judged by the library; the floor is taken once.
#[derive(Clone, Copy, Debug)]
pub struct Candidates<'a> {
    view: View<'a>,
    settings: Settings,
    floor: f32,
}

impl<'a> Candidates<'a> {
    /// Of a map and the working image that belongs to it. Where the list's own call would be refused these are no call's.
    pub fn new(view: View<'a>, settings: &Settings) -> Candidates<'a> {
        Candidates {
            view,
            settings: *settings,
            floor: settings.threshold_rel * greatest(view),
        }
    }

    /// The verdict on a working pixel. One whose window does not lie in the map is not above the floor.
    pub fn verdict(&self, x: usize, y: usize) -> Verdict {
        let number = lent::verdict(self.view, &self.settings, self.floor, x, y);
        Verdict::from_number(number).expect("the library's verdicts are 0 to 5")
    }

    /// All of them in row order.
    pub fn iter(&self) -> impl Iterator<Item = Candidate> + '_ {
        let row = move |y| {
            self.columns().map(move |x| Candidate {
                x,
                y,
                verdict: self.verdict(x, y),
            })
        };
        self.rows().flat_map(row)
    }

    pub fn columns(&self) -> Range<usize> {
        self.inside(self.view.width)
    }

    pub fn rows(&self) -> Range<usize> {
        self.inside(self.view.height)
    }

    /// What is at least the border away from both ends of a side.
    fn inside(&self, side: usize) -> Range<usize> {
        let border = self.settings.border();
        border..side.saturating_sub(border)
    }

    /// How many have each verdict, judged one by one: what the call that made the list told, by another way.
    pub fn count(&self) -> Verdicts {
        let mut counts = [0; 6];
        self.iter()
            .for_each(|candidate| counts[candidate.verdict as usize] += 1);
        counts.into()
    }
}

/// The greatest value of a map, from 0 up, as the library takes it.
fn greatest(view: View) -> f32 {
    let pixels = view.width.saturating_mul(view.height);
    let greater = |most: f32, value: &f32| if most < *value { *value } else { most };
    view.response.iter().take(pixels).fold(0.0, greater)
}
