//! The two sets of settings that have a name are the proved ones, and the original's own is that of the existing sites.

use std::fs;
use std::path::Path;

use judge::original::{PeakFitMode, RadonDetectorParams};
use steyrbunk::{PeakFit, Settings};

fn read(path: &str) -> String {
    let root = Path::new(env!("CARGO_MANIFEST_DIR")).join("../..");
    fs::read_to_string(root.join(path)).expect("a file of the repository")
}

/// The constants that the proved constructors put together.
#[test]
fn the_proved_sets() {
    let proved = read("crates/params/src/settings.rt");
    let constant = |name: &str| -> f32 {
        let value = proved
            .split_once(&format!("pub const {name}: "))
            .expect(name)
            .1;
        let value = value
            .split_once(" = ")
            .and_then(|(_, value)| value.split_once(';'));
        value.expect("a value").0.parse().expect("a number")
    };
    let usual = Settings::default();
    for (name, value) in [
        ("RAY_RADIUS", usual.ray_radius as f32),
        ("IMAGE_UPSAMPLE", usual.image_upsample as f32),
        ("RESPONSE_BLUR_RADIUS", usual.response_blur_radius as f32),
        ("THRESHOLD_REL", usual.threshold_rel),
        ("NMS_RADIUS", usual.nms_radius as f32),
        ("MIN_CLUSTER_SIZE", usual.min_cluster_size as f32),
    ] {
        assert_eq!(constant(&format!("DEFAULT_{name}")), value, "{name}");
    }
    assert!(proved.contains("peak_fit: PeakFitMode::Gaussian,"));
    assert_eq!((usual.peak_fit, usual.nms_radius), (PeakFit::Gaussian, 6));
    let sites = Settings::existing_sites();
    assert_eq!(
        constant("EXISTING_SITES_NMS_RADIUS"),
        sites.nms_radius as f32
    );
    assert_eq!(
        sites,
        Settings {
            nms_radius: 4,
            ..usual
        }
    );
}

/// The published Rust's own defaults did not move with ours.
#[test]
fn the_originals_own() {
    let (original, sites) = (RadonDetectorParams::default(), Settings::existing_sites());
    assert_eq!(original.ray_radius, sites.ray_radius);
    assert_eq!(original.image_upsample, sites.image_upsample);
    assert_eq!(original.response_blur_radius, sites.response_blur_radius);
    assert!(matches!(original.peak_fit, PeakFitMode::Gaussian));
    assert_eq!(sites.peak_fit, PeakFit::Gaussian);
    assert_eq!(original.threshold_rel, sites.threshold_rel);
    assert_eq!(original.nms_radius, sites.nms_radius);
    assert_eq!(original.min_cluster_size, sites.min_cluster_size);
}

/// What the documents say of the least side goes by the settings.
#[test]
fn the_documents() {
    let (usual, sites) = (Settings::default(), Settings::existing_sites());
    let row = |words: &str, settings: &Settings| {
        let (border, side) = (settings.border(), settings.least_side());
        format!("{words} | {border} | {} | {side} |", 2 * border)
    };
    let using = read("docs/USING.md");
    for row in [
        row("| 4, 6, 2: the defaults", &usual),
        row("| 4, 4, 2: the existing sites'", &sites),
    ] {
        assert!(using.contains(&row), "{row}");
    }
    let side = usual.least_side();
    let told = format!("which with the default settings is {side} pixels of the picture");
    assert!(read("README.md").contains(&told), "{told}");
}
