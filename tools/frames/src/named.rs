//! The settings that a call names, by the same words for every command.

use console::{Usage, Words};
use steyrbunk::{PeakFit, Settings};

/// What a help says of the settings, with limits and defaults from where they are said.
pub fn settings_help() -> String {
    let Settings {
        ray_radius: ray,
        image_upsample: up,
        response_blur_radius: blur,
        threshold_rel: threshold,
        nms_radius: window,
        min_cluster_size: least,
        ..
    } = Settings::default();
    let (rays, blurs, windows) = (limits::RAY, limits::BLUR, limits::SUPPRESSION);
    let side = Settings::default().least_side();
    let sites = Settings::existing_sites().nms_radius;
    format!(
        "\
Settings, for PGM pictures; a frame file has its own. A frame whose working width or height is at
most twice (ray + suppression + 1) is too small to judge and is refused, 15, where an empty panel
has an empty list: with the defaults each side needs {side} pixels or more.
  --settings NAME            all of them, by the name of a set: {DEFAULT}, or {EXISTING_SITES},
                             which is for sites older than version 0.5.0: the default but for
                             --nms-radius {sites}, as the published Rust has it. What is named singly
                             goes over the set
  --ray-radius N             0 to {rays}, default {ray}; half length of the rays, in working pixels
  --image-upsample N         1 or 2, default {up}; working pixels along an input pixel
  --response-blur-radius N   0 to {blurs}, default {blur}
  --peak-fit NAME            parabolic or gaussian, default gaussian
  --threshold-rel F          0 to 1, default {threshold}; a part of the frame's strongest response
  --nms-radius N             0 to {windows}, default {window}; half size of the window a corner must win
  --min-cluster-size N       default {least}; positive neighbours that a corner must have
"
    )
}

/// The sets by their names.
const DEFAULT: &str = "default";
const EXISTING_SITES: &str = "existing-sites";

/// The settings that the call names.
#[derive(Default, Clone, Copy, PartialEq)]
pub struct Named {
    /// All of them, by the name of a set.
    pub set: Option<Settings>,
    pub ray_radius: Option<u32>,
    pub image_upsample: Option<u32>,
    pub response_blur_radius: Option<u32>,
    pub peak_fit: Option<PeakFit>,
    pub threshold_rel: Option<f32>,
    pub nms_radius: Option<u32>,
    pub min_cluster_size: Option<u32>,
}

impl Named {
    /// Takes a setting's flag with its value; false if the flag names no setting.
    pub fn flag(&mut self, flag: &str, words: &mut Words) -> Result<bool, Usage> {
        const WHOLE: &str = "a whole number";
        match flag {
            "--settings" => {
                let wanted = format!("{DEFAULT} or {EXISTING_SITES}");
                self.set = match words.value::<String>(flag, &wanted)?.as_str() {
                    DEFAULT => Some(Settings::default()),
                    EXISTING_SITES => Some(Settings::existing_sites()),
                    name => return Usage::wrong(format!("{flag} wants {wanted}, not '{name}'")),
                }
            }
            "--ray-radius" => self.ray_radius = Some(words.value(flag, WHOLE)?),
            "--image-upsample" => match words.value(flag, "1 or 2")? {
                factor @ 1..=2 => self.image_upsample = Some(factor),
                factor => return Usage::wrong(format!("{flag} wants 1 or 2, not '{factor}'")),
            },
            "--response-blur-radius" => self.response_blur_radius = Some(words.value(flag, WHOLE)?),
            "--peak-fit" => {
                let wanted = "parabolic or gaussian";
                self.peak_fit = match words.value::<String>(flag, wanted)?.as_str() {
                    "parabolic" => Some(PeakFit::Parabolic),
                    "gaussian" => Some(PeakFit::Gaussian),
                    name => return Usage::wrong(format!("no peak fit is called {name}")),
                }
            }
            "--threshold-rel" => self.threshold_rel = Some(words.value(flag, "a number")?),
            "--nms-radius" => self.nms_radius = Some(words.value(flag, WHOLE)?),
            "--min-cluster-size" => self.min_cluster_size = Some(words.value(flag, WHOLE)?),
            _ => return Ok(false),
        }
        Ok(true)
    }

    /// A set has all settings, so nothing of the base is left where one is named.
    pub fn over(&self, base: Settings) -> Settings {
        let base = self.set.unwrap_or(base);
        Settings {
            ray_radius: self.ray_radius.unwrap_or(base.ray_radius),
            image_upsample: self.image_upsample.unwrap_or(base.image_upsample),
            response_blur_radius: self
                .response_blur_radius
                .unwrap_or(base.response_blur_radius),
            peak_fit: self.peak_fit.unwrap_or(base.peak_fit),
            threshold_rel: self.threshold_rel.unwrap_or(base.threshold_rel),
            nms_radius: self.nms_radius.unwrap_or(base.nms_radius),
            min_cluster_size: self.min_cluster_size.unwrap_or(base.min_cluster_size),
        }
    }
}
