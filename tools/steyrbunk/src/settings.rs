//! The settings of a call.

/// How a peak is fitted between pixels.
#[derive(Clone, Copy, Debug, PartialEq, Eq)]
pub enum PeakFit {
    /// A parabola through the three values.
    Parabolic,
    /// A parabola through their logarithms.
    Gaussian,
}

impl PeakFit {
    /// The number in a frame file and in the C interface.
    pub fn number(self) -> u8 {
        match self {
            PeakFit::Parabolic => 0,
            PeakFit::Gaussian => 1,
        }
    }

    pub fn from_number(number: u8) -> Option<PeakFit> {
        match number {
            0 => Some(PeakFit::Parabolic),
            1 => Some(PeakFit::Gaussian),
            _ => None,
        }
    }
}

/// Radii are working-resolution pixels. What is out of range is refused by the call, not here.
#[derive(Clone, Copy, Debug, PartialEq)]
pub struct Settings {
    /// Up to [`limits::RAY`]; 0 counts as 1.
    pub ray_radius: u32,
    /// 0 counts as 1, 3 or more as 2.
    pub image_upsample: u32,
    /// Up to [`limits::BLUR`]; 0 leaves the map unblurred.
    pub response_blur_radius: u32,
    pub peak_fit: PeakFit,
    /// 0.0 to 1.0: the floor as a fraction of the map's maximum.
    pub threshold_rel: f32,
    /// Up to [`limits::SUPPRESSION`].
    pub nms_radius: u32,
    /// Positive values that a corner's window must hold beside its own.
    pub min_cluster_size: u32,
}

impl Default for Settings {
    /// The defaults of the proved `RadonDetectorParams`. The suppression radius is 6 since version 0.5.0, which was 4 before: who depended on
    /// that takes [`Settings::existing_sites`], or names it.
    fn default() -> Self {
        Settings {
            ray_radius: 4,
            image_upsample: 2,
            response_blur_radius: 1,
            peak_fit: PeakFit::Gaussian,
            threshold_rel: 0.28,
            nms_radius: 6,
            min_cluster_size: 2,
        }
    }
}

impl Settings {
    /// What sites older than version 0.5.0 start up with: as the default, but a suppression radius of 4. These are the published Rust's own
    /// defaults, and a test holds them to it should another default of ours move.
    pub fn existing_sites() -> Settings {
        Settings {
            nms_radius: 4,
            ..Settings::default()
        }
    }

    /// The upsampling factor in force, 1 or 2.
    pub fn factor(&self) -> usize {
        self.image_upsample.clamp(1, 2) as usize
    }

    /// How many working pixels about a frame's edge no corner is looked for in: ray, suppression and one.
    pub fn border(&self) -> usize {
        self.ray_radius.max(1) as usize + self.nms_radius as usize + 1
    }

    /// Input pixels that either side of an image has at least; one that has less is refused, 15, for a list.
    pub fn least_side(&self) -> usize {
        2 * self.border() / self.factor() + 1
    }
}
