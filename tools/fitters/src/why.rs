//! What the six counts of a frame say together, in words that a fitter can act on. It is a hint and no finding: what it goes by was seen of
//! rendered panels, which tests/study.rs measures and docs/USING.md lists.

use steyrbunk::{PeakFit, Settings, Verdict, Verdicts};

/// Beaten places for each peak. A sharp panel has 20 to 30. What is blurred, or too small to be seen, may have the first of these or
/// more, and nothing that is too flat; a picture that is hardly more than noise has fewer than the second, or peaks that are too flat.
const BROAD: usize = 50;
const NARROW: usize = 10;

const NOTHING: &str = "nothing stands out: look for a cover, darkness or plain grey before the lens, or for something strong at the very edge";
const THRESHOLD: &str =
    "a threshold of 1 leaves nothing above the floor, whatever the picture shows";
const OTHER_SETTINGS: &str =
    "what counts say together is known for the default settings and those of the existing sites alone, and these are others";
const FAINT: &str = "peaks too flat or narrow: the picture may be faint or glaring, as by haze, a film on the lens, too little light or too much, and much that is kept may be noise";
const EDGES: &str = "wrong curvature: edges or spots besides corners, as by specks, glare, something before the panel, or a panel turned far away";
const NO_SIGN: &str = "no sign of blur, haze, specks or glare";
const KEPT: &str = "fewer kept than the panel has corners: look at the aim, then at what hides or blurs a part of it; many more: at dirt, light and other things in the picture";

/// A number as the documents write it: 8,388,608.
pub fn counted(number: usize) -> String {
    let digits = number.to_string();
    let mut text = String::new();
    for (at, digit) in digits.chars().enumerate() {
        if at > 0 && (digits.len() - at) % 3 == 0 {
            text.push(',');
        }
        text.push(digit);
    }
    text
}

/// The counts of a frame that was searched, and what they say.
pub fn words(verdicts: Verdicts, settings: &Settings) -> String {
    let dropped = Verdict::ALL
        .into_iter()
        .filter(|each| *each != Verdict::Kept);
    let dropped = dropped.map(|each| format!("{} {}", counted(verdicts.of(each)), each.words()));
    let (kept, all) = (counted(verdicts.kept), counted(verdicts.total()));
    format!(
        "{kept} kept of {all} candidates; {}; {}",
        dropped.collect::<Vec<_>>().join(", "),
        said(verdicts, settings).join("; ")
    )
}

/// Of a frame without a list.
pub fn unsearched() -> String {
    "there is no list, so no candidate is counted: all six are 0".to_string()
}

fn said(verdicts: Verdicts, settings: &Settings) -> Vec<String> {
    if verdicts.not_above == verdicts.total() {
        let words = if settings.threshold_rel < 1.0 {
            NOTHING
        } else {
            THRESHOLD
        };
        return vec![words.to_string()];
    }
    let mut said = if is_usual(settings) {
        signs(verdicts)
    } else {
        vec![OTHER_SETTINGS.to_string()]
    };
    if verdicts.too_few > 0 {
        let least = settings.min_cluster_size;
        said.push(format!(
            "too few positive neighbours: a least count of {least} asks for more than is there"
        ));
    }
    said.push(KEPT.to_string());
    said
}

/// Whether a frame was searched as those that were measured, with one of the sets that have a name: the fit moves places alone.
fn is_usual(settings: &Settings) -> bool {
    let same = Settings {
        image_upsample: settings.factor() as u32,
        peak_fit: PeakFit::Gaussian,
        ..*settings
    };
    [Settings::default(), Settings::existing_sites()].contains(&same)
}

/// What speaks for blur, haze, specks or glare, or that nothing does. There is a place above the floor, so there is a peak.
fn signs(verdicts: Verdicts) -> Vec<String> {
    let peaks = verdicts.total() - verdicts.not_above - verdicts.beaten;
    let each = verdicts.beaten / peaks.max(1);
    let broad = format!(
        "broad peaks ({each} beaten for each, 20 to 30 at a sharp panel): out of focus or a film on the lens; with few kept, a panel too far off or turned too far away"
    );
    let signs = [
        (each >= BROAD && verdicts.too_flat == 0, broad),
        (verdicts.too_flat > 0 || each < NARROW, FAINT.to_string()),
        (verdicts.wrong_curvature > 0, EDGES.to_string()),
    ];
    let mut told: Vec<String> = signs
        .into_iter()
        .filter(|sign| sign.0)
        .map(|sign| sign.1)
        .collect();
    if told.is_empty() {
        told.push(NO_SIGN.to_string());
    }
    told
}

#[cfg(test)]
mod tests {
    use super::*;

    fn said_of(counts: [usize; 6], settings: Settings) -> Vec<String> {
        said(counts.into(), &settings)
    }

    #[test]
    fn numbers() {
        for (number, text) in [
            (0, "0"),
            (999, "999"),
            (1_000, "1,000"),
            (8_388_608, "8,388,608"),
        ] {
            assert_eq!(counted(number), text);
        }
    }

    /// What is said goes by the counts: each sign alone, none of them, and two together.
    #[test]
    fn signs_by_counts() {
        let of = |counts| said_of(counts, Settings::default());
        let broad = "broad peaks (68 beaten for each, 20 to 30 at a sharp panel)";
        assert_eq!(of([1_000, 0, 0, 0, 0, 0]), [NOTHING]);
        assert_eq!(of([1_000, 280, 0, 0, 0, 10]), [NO_SIGN, KEPT]);
        assert_eq!(of([1_000, 499, 0, 0, 0, 10]), [NO_SIGN, KEPT]);
        assert!(of([1_000, 680, 0, 0, 0, 10])[0].starts_with(broad));
        assert_eq!(of([1_000, 680, 0, 0, 0, 10])[1..], [KEPT]);
        assert_eq!(of([1_000, 99, 0, 0, 0, 10]), [FAINT, KEPT]);
        assert_eq!(of([1_000, 280, 0, 1, 0, 9]), [FAINT, KEPT]);
        assert_eq!(of([1_000, 680, 0, 1, 0, 9]), [FAINT, KEPT]);
        assert_eq!(of([1_000, 280, 0, 0, 1, 9]), [EDGES, KEPT]);
        assert_eq!(of([1_000, 280, 0, 1, 1, 8]), [FAINT, EDGES, KEPT]);
        assert_eq!(of([1_000, 280, 0, 0, 10, 0]), [EDGES, KEPT]);
        let few = "too few positive neighbours: a least count of 2 asks for more than is there";
        assert_eq!(of([1_000, 280, 1, 0, 0, 9]), [NO_SIGN, few, KEPT]);
    }

    /// With other settings than those that were measured there is no sign, but for what holds with any.
    #[test]
    fn other_settings() {
        let usual = Settings::default();
        let others = [
            Settings {
                ray_radius: 3,
                ..usual
            },
            Settings {
                image_upsample: 1,
                ..usual
            },
            Settings {
                response_blur_radius: 0,
                ..usual
            },
            Settings {
                threshold_rel: 0.1,
                ..usual
            },
            Settings {
                nms_radius: 5,
                ..usual
            },
            Settings {
                min_cluster_size: 3,
                ..usual
            },
        ];
        for settings in others {
            assert_eq!(
                said_of([9, 680, 0, 5, 5, 10], settings),
                [OTHER_SETTINGS, KEPT]
            );
            assert_eq!(said_of([9, 0, 0, 0, 0, 0], settings), [NOTHING]);
        }
        for set in [usual, Settings::existing_sites()] {
            let same = Settings {
                image_upsample: 7,
                peak_fit: PeakFit::Parabolic,
                ..set
            };
            assert_eq!(said_of([9, 280, 0, 0, 0, 10], same), [NO_SIGN, KEPT]);
        }
        let full = Settings {
            threshold_rel: 1.0,
            ..usual
        };
        assert_eq!(said_of([9, 0, 0, 0, 0, 0], full), [THRESHOLD]);
    }

    /// A line has all six, and what they say behind them.
    #[test]
    fn a_line() {
        let line = words([285_977, 1_339, 0, 0, 0, 48].into(), &Settings::default());
        assert_eq!(
            line,
            format!(
                "48 kept of 287,364 candidates; 285,977 not above the floor, 1,339 beaten by a neighbour, \
                 0 too few positive neighbours, 0 too flat, 0 wrong curvature; {NO_SIGN}; {KEPT}"
            )
        );
    }
}
