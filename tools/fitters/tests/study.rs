//! What the six counts are of rendered panels, with either set of settings that has a name: the tables of docs/USING.md are the ones that
//! are measured here, and what these and `--why` conclude holds for variants of each frame.

mod scenes;

use std::collections::HashMap;
use std::fs;
use std::ops::Range;
use std::path::Path;
use std::sync::OnceLock;

use scenes::{scenes, thousands, Scene, HEIGHT, WIDTH};
use steyrbunk::{Finder, Found, Image, Settings, Verdicts};

/// How far a corner may lie from where it was drawn, in input pixels.
const NEAR: f64 = 1.5;
/// Variants of each frame that the conclusions are held to, each turned further in the picture: from 5° to 27°.
const VARIANTS: u32 = 6;
const ALL: usize = VARIANTS as usize;
/// Those that are turned by 14° at most.
const UPRIGHT: usize = 3;

/// The default settings, and the existing sites', by their places here.
const DEFAULT: usize = 0;
const SITES: usize = 1;
fn sets() -> [Settings; 2] {
    [Settings::default(), Settings::existing_sites()]
}

fn searched(scene: &Scene, settings: &Settings) -> Found {
    let pixels = scene.pixels();
    let image = Image {
        pixels: &pixels,
        width: WIDTH,
        height: HEIGHT,
    };
    Finder::new().find(image, settings).expect("accepted")
}

/// How many of the panel's corners have a found one near them, of those that are in the picture.
fn of_panel(scene: &Scene, found: &Found, settings: &Settings) -> Option<(usize, usize)> {
    let corners = scene.pose?.corners(settings.border() as f64 / 2.0);
    let near = |(x, y): &&(f64, f64)| {
        found.corners.iter().any(|corner| {
            let (dx, dy) = (f64::from(corner.x) - x, f64::from(corner.y) - y);
            dx * dx + dy * dy <= NEAR * NEAR
        })
    };
    Some((corners.iter().filter(near).count(), corners.len()))
}

/// Places above the floor that nothing beats.
fn peaks(verdicts: &Verdicts) -> usize {
    verdicts.total() - verdicts.not_above - verdicts.beaten
}

fn beaten_each(verdicts: &Verdicts) -> Option<usize> {
    let peaks = peaks(verdicts);
    (peaks > 0).then(|| verdicts.beaten / peaks)
}

/// What a row of the table has of a set of settings: the counts that are asked for, beaten for each peak, and what was found of the panel.
fn cells(scene: &Scene, settings: &Settings, counts: Range<usize>) -> String {
    let found = searched(scene, settings);
    let verdicts = found.verdicts.expect("searched");
    let all = verdicts.counts().map(thousands);
    let each = beaten_each(&verdicts).map_or("-".to_string(), thousands);
    let panel = of_panel(scene, &found, settings);
    let panel = panel.map_or("-".to_string(), |(found, all)| format!("{found} of {all}"));
    format!("{} | {each} | {panel}", all[counts].join(" | "))
}

/// A row of the table: all counts of the default settings, and of the existing sites' the number kept.
fn row(scene: &Scene) -> String {
    let [usual, sites] = sets();
    let (usual, sites) = (cells(scene, &usual, 0..6), cells(scene, &sites, 5..6));
    format!("| {} | {usual} | {sites} |", scene.name)
}

fn using() -> String {
    let using = Path::new(env!("CARGO_MANIFEST_DIR")).join("../../docs/USING.md");
    fs::read_to_string(using).expect("the document")
}

/// The rows stand in docs/USING.md as they are measured, one behind the other.
fn in_using(rows: &[String]) {
    let using = using();
    println!("{}", rows.join("\n"));
    let missing = rows.iter().filter(|row| !using.contains(row.as_str()));
    assert_eq!(missing.collect::<Vec<_>>(), Vec::<&String>::new());
    let measured = |line: &&str| rows.iter().any(|row| row == line);
    let first = using.lines().position(|line| line == rows[0]);
    let after = using.lines().skip(first.expect("the first row"));
    assert_eq!(after.take_while(measured).count(), rows.len());
}

#[test]
fn the_table() {
    in_using(&scenes(0).iter().map(row).collect::<Vec<_>>());
}

/// The counts of every scene by its name.
type Counts = HashMap<&'static str, Verdicts>;

/// Those of each variant, by each set of settings; measured once for all tests.
fn measured() -> &'static [[Counts; 2]] {
    static MEASURED: OnceLock<Vec<[Counts; 2]>> = OnceLock::new();
    let variant = |variant| {
        let scenes = scenes(variant);
        sets().map(|settings| {
            let searched = scenes.iter().map(|scene| searched(scene, &settings));
            let counts = searched.map(|found| found.verdicts.expect("searched"));
            scenes.iter().map(|scene| scene.name).zip(counts).collect()
        })
    };
    MEASURED.get_or_init(|| (0..VARIANTS).map(variant).collect())
}

/// What holds of the scenes of these names, in so many variants, with these sets.
fn hold_with(sets: &[usize], variants: usize, names: &[&str], holds: impl Fn(&Verdicts) -> bool) {
    for (variant, measured) in measured().iter().enumerate().take(variants) {
        for (set, name) in sets
            .iter()
            .flat_map(|set| names.iter().map(move |name| (*set, name)))
        {
            let verdicts = &measured[set][name];
            assert!(
                holds(verdicts),
                "{name}, variant {variant}, set {set}: {verdicts:?}"
            );
        }
    }
}

/// With either set.
fn hold(variants: usize, names: &[&str], holds: impl Fn(&Verdicts) -> bool) {
    hold_with(&[DEFAULT, SITES], variants, names, holds);
}

fn is_broad(verdicts: &Verdicts) -> bool {
    verdicts.too_flat == 0 && beaten_each(verdicts).is_some_and(|each| each >= 50)
}

fn is_faint(verdicts: &Verdicts) -> bool {
    verdicts.too_flat > 0 || beaten_each(verdicts).is_some_and(|each| each < 10)
}

/// No sign that `--why` goes by.
fn is_silent(verdicts: &Verdicts) -> bool {
    let none = verdicts.too_few + verdicts.wrong_curvature == 0;
    none && !is_broad(verdicts) && !is_faint(verdicts)
}

/// As far apart as the default window reaches: its corners beat each other there, and are all found with the existing sites' settings.
const SQUARES_OF_3: &str = "far away, squares of 3";

/// What has no sign of anything: a panel that is whole, or of which a part is outside; and, not to be told from these, one of which a part
/// is blurred.
#[test]
fn no_sign() {
    let names = [
        "sharp",
        "haze, contrast 40",
        "turned away, 60°",
        "turned away, 75°",
        "a quarter outside",
        "two thirds outside",
        "far away, squares of 6",
        "blurred much, its left half",
    ];
    hold(ALL, &names, is_silent);
    hold_with(&[SITES], ALL, &[SQUARES_OF_3], is_silent);
    let whole = [
        "sharp",
        "haze, contrast 40",
        "turned away, 75°",
        "far away, squares of 6",
    ];
    hold(ALL, &whole, |verdicts| {
        (20..30).contains(&beaten_each(verdicts).unwrap_or(0)) && verdicts.kept >= 48
    });
}

/// Broad peaks: blur, where the panel is not turned far, and panels that are too small to be seen.
#[test]
fn broad_peaks() {
    let blurred = ["blurred a little", "blurred", "blurred much"];
    hold(UPRIGHT, &blurred, |verdicts| {
        is_broad(verdicts) && verdicts.kept >= 48
    });
    let small = [
        "turned away, 85°",
        "far away, squares of 2",
        "no panel, boxes and beams",
    ];
    let few = |verdicts: &Verdicts| is_broad(verdicts) && verdicts.kept < 24;
    hold(ALL, &small, few);
    hold_with(&[DEFAULT], ALL, &[SQUARES_OF_3], few);
}

const FAINT: [&str; 4] = [
    "haze, contrast 3",
    "haze, contrast 2",
    "no panel, plain grey",
    "black",
];

/// Faint pictures, and how much of noise is kept there.
#[test]
fn faint_pictures() {
    hold(ALL, &FAINT, |verdicts| {
        is_faint(verdicts) && !is_broad(verdicts) && verdicts.kept > 2 * 48
    });
    hold(ALL, &["black, no noise"], |verdicts| {
        verdicts.not_above == verdicts.total()
    });
}

/// Edges and spots besides corners.
#[test]
fn edges() {
    let names = [
        "60 specks",
        "300 specks",
        "1,000 specks",
        "glare on a tenth",
        "glare on a third",
        "a beam before it",
        "turned away, 82°",
        "turned away, 85°",
        "no panel, boxes and beams",
    ];
    hold(ALL, &names, |verdicts| verdicts.wrong_curvature > 0);
}

/// The least and the greatest number of kept ones in all variants of these.
fn kept(set: usize, names: &[&str]) -> String {
    let all = measured().iter();
    let all: Vec<usize> = all
        .flat_map(|measured| names.iter().map(|name| measured[set][name].kept))
        .collect();
    let ends = [all.iter().min(), all.iter().max()];
    ends.map(|end| thousands(*end.expect("a scene")))
        .join(" to ")
}

/// The numbers that docs/USING.md concludes with stand there as they are measured.
#[test]
fn the_conclusions() {
    let (using, specks) = (using(), ["60 specks", "300 specks", "1,000 specks"]);
    let many = |set| [&specks[..], &FAINT, &["blurred much"]].map(|names| kept(set, names));
    let ([specked, faint, blurred], sites) = (many(DEFAULT), many(SITES).join(", "));
    let mut told = vec![
        format!(
            "{specked} with specks, {faint} where it is faint, {blurred} where it is blurred much"
        ),
        format!("with the existing sites' settings {sites}"),
    ];
    for set in [DEFAULT, SITES] {
        let (turned, hidden) = (
            &measured()[5][set]["sharp"],
            &measured()[4][set]["blurred a little"],
        );
        assert!(is_silent(hidden), "{hidden:?}");
        let each = beaten_each(hidden).expect("peaks");
        told.push(format!(
            "a sharp panel that was turned by 27° had {}",
            turned.kept
        ));
        told.push(format!(
            "blurred a little and turned by 23° had {each} beaten for each peak"
        ));
    }
    let missing = told.iter().filter(|told| !using.contains(told.as_str()));
    assert_eq!(missing.collect::<Vec<_>>(), Vec::<&String>::new());
}

/// How far from a panel's corner a second one is a double.
const DOUBLE: f64 = 5.0;

/// Of ten frames of a panel with squares of so many pixels: its corners in the pictures, and with a set of settings how many of these were
/// found, how many further ones lie near one that was, and how many elsewhere.
fn doubles(scenes: &[Scene], settings: &Settings) -> [usize; 4] {
    let border = Settings::default().border() as f64 / 2.0;
    let mut all = [0; 4];
    for scene in scenes {
        let corners = scene.pose.expect("a panel").corners(border);
        let mut near = vec![0usize; corners.len()];
        let mut elsewhere = 0;
        for corner in &searched(scene, settings).corners {
            let place = (f64::from(corner.x), f64::from(corner.y));
            let is_near = |(x, y): &(f64, f64)| {
                let (dx, dy) = (place.0 - x, place.1 - y);
                dx * dx + dy * dy <= DOUBLE * DOUBLE
            };
            match corners.iter().position(is_near) {
                Some(at) => near[at] += 1,
                None => elsewhere += 1,
            }
        }
        let found = near.iter().filter(|near| **near > 0).count();
        let further = near.iter().sum::<usize>() - found;
        let counts = [corners.len(), found, further, elsewhere];
        all.iter_mut()
            .zip(counts)
            .for_each(|(all, count)| *all += count);
    }
    all
}

/// A row of the second table of docs/USING.md: fewer double corners with the default settings, which is what they are for.
fn doubles_row(square: u32, means: usize, blurred: &str) -> String {
    let scenes = scenes::turned(square.into(), means);
    let [usual, sites] = sets().map(|settings| doubles(&scenes, &settings));
    let pairs = (1..4).map(|at| [usual[at], sites[at]].map(thousands).join(" | "));
    let pairs: Vec<String> = pairs.collect();
    let row = format!(
        "| {square}, {blurred} | {} | {} |",
        usual[0],
        pairs.join(" | ")
    );
    assert!(
        usual[2] <= sites[2] && (means == 0) == (sites[2] == 0),
        "{row}"
    );
    row
}

#[test]
fn double_corners() {
    let frames = [(0, "sharp"), (16, "blurred"), (32, "blurred more")];
    let rows = [24, 48].map(|square| frames.map(|(means, name)| doubles_row(square, means, name)));
    in_using(&rows.concat());
}
