//! The three sides: ours, the Rust as it is built by default, and the Rust with u32 tables.

use std::hint::black_box;

use steyrbunk::lent::View;
use steyrbunk::{Finder, Image, PeakFit, Settings};

use crate::pass::Pass;

/// A program with its own buffers, which it keeps.
pub trait Side {
    /// Makes everything once, so that each pass has what it goes by, and tells how many corners there are.
    fn count(&mut self) -> usize;
    /// Takes away what a pass makes, where it could be left undone and nobody would see it.
    fn spoil(&mut self, _: Pass) {}
    /// One timed call. A blur goes on from what the call before it left.
    fn call(&mut self, pass: Pass);
    /// Working image and response as they stand.
    fn left(&self) -> (&[u8], &[f32]);
}

/// Ours, the Rust by default, the Rust with u32 tables.
pub fn sides<'a>(image: Image<'a>, settings: Settings) -> [Box<dyn Side + 'a>; 3] {
    [
        Box::new(Ours::new(image, settings)),
        Box::new(Default64::new(image, settings)),
        Box::new(Tables32::new(image, settings)),
    ]
}

/// The static library through its wrapper, whose list grows in the first call.
struct Ours<'a> {
    image: Image<'a>,
    settings: Settings,
    finder: Finder,
    map: Option<OwnMap>,
}

/// A map of its own for the list: working image and response, width and height.
type OwnMap = (Vec<u8>, Vec<f32>, usize, usize);

impl<'a> Ours<'a> {
    fn new(image: Image<'a>, settings: Settings) -> Self {
        Ours {
            image,
            settings,
            finder: Finder::new(),
            map: None,
        }
    }

    fn whole(&mut self) -> usize {
        let found = self.finder.find(self.image, &self.settings);
        found.expect("an accepted frame").corners.len()
    }

    #[cfg(passes)]
    fn single(&mut self, pass: Pass) {
        use crate::passes;
        let map = self.finder.map();
        let (sides, settings) = ((map.width, map.height), &self.settings);
        let lent = self.finder.lend();
        match pass {
            Pass::Upsample => passes::upsample(self.image, settings, lent),
            Pass::Rays => passes::rays(sides, settings, lent),
            _ => passes::blur(sides, settings, lent),
        }
    }

    #[cfg(not(passes))]
    fn single(&mut self, _: Pass) {
        unreachable!("the single passes are left out")
    }
}

impl Side for Ours<'_> {
    fn count(&mut self) -> usize {
        let count = self.whole();
        let map = self.finder.map();
        self.map = Some((
            map.working.to_vec(),
            map.response.to_vec(),
            map.width,
            map.height,
        ));
        count
    }

    fn spoil(&mut self, pass: Pass) {
        // A pass changes nothing where sizes do not fit; response and blur show that by themselves.
        if pass == Pass::Upsample {
            self.finder.lend().working.fill(0);
        }
    }

    fn call(&mut self, pass: Pass) {
        match pass {
            Pass::Map(_) => {
                black_box(self.finder.response(self.image, &self.settings)).expect("accepted");
            }
            Pass::List => {
                let (working, response, width, height) = self.map.as_ref().expect("counted before");
                let view = View {
                    response,
                    working,
                    width: *width,
                    height: *height,
                };
                black_box(self.finder.peaks(view, &self.settings)).expect("accepted");
            }
            Pass::Whole => {
                black_box(self.whole());
            }
            single => self.single(single),
        }
    }

    fn left(&self) -> (&[u8], &[f32]) {
        let map = self.finder.map();
        (map.working, map.response)
    }
}

/// A side over one build of the judge: the two builds have the same names, but not the same types.
macro_rules! original {
    ($(#[$about:meta])* $name:ident, $build:ident) => {
        $(#[$about])*
        struct $name<'a> {
            image: Image<'a>,
            params: $build::original::RadonDetectorParams,
            buffers: $build::original::RadonBuffers,
            map: Option<OwnMap>,
        }

        impl<'a> $name<'a> {
            fn new(image: Image<'a>, settings: Settings) -> Self {
                let mut params = $build::original::RadonDetectorParams::default();
                params.ray_radius = settings.ray_radius;
                params.image_upsample = settings.image_upsample;
                params.response_blur_radius = settings.response_blur_radius;
                params.peak_fit = match settings.peak_fit {
                    PeakFit::Parabolic => $build::original::PeakFitMode::Parabolic,
                    PeakFit::Gaussian => $build::original::PeakFitMode::Gaussian,
                };
                params.threshold_rel = settings.threshold_rel;
                params.nms_radius = settings.nms_radius;
                params.min_cluster_size = settings.min_cluster_size;
                let buffers = $build::original::RadonBuffers::new();
                $name { image, params, buffers, map: None }
            }

            fn map(&mut self) -> $build::original::RadonResponseView<'_> {
                let Image { pixels, width, height } = self.image;
                $build::original::radon_response_u8(pixels, width, height, &self.params, &mut self.buffers)
            }

            fn whole(&mut self) -> usize {
                let params = self.params.clone();
                $build::original::detect_peaks_from_radon(&self.map(), &params).len()
            }
        }

        impl Side for $name<'_> {
            fn count(&mut self) -> usize {
                let count = self.whole();
                let map = $build::original::map(&self.buffers);
                self.map = Some((map.working.to_vec(), map.response.to_vec(), map.w, map.h));
                count
            }

            fn call(&mut self, pass: Pass) {
                let Image { pixels, width, height } = self.image;
                let (params, buffers) = (&self.params, &mut self.buffers);
                match pass {
                    Pass::Upsample => {
                        $build::original::upsample(pixels, width, height, params.image_upsample, buffers)
                    }
                    Pass::Rays => $build::original::rays(params.ray_radius as usize, buffers),
                    Pass::Blur(_) => $build::original::blur(params.response_blur_radius as usize, buffers),
                    Pass::Map(_) => {
                        black_box(self.map());
                    }
                    Pass::List => {
                        let (working, response, w, h) = self.map.as_ref().expect("counted before");
                        let view = $build::original::view(response, working, *w, *h);
                        black_box($build::original::detect_peaks_from_radon(&view, params));
                    }
                    Pass::Whole => {
                        black_box(self.whole());
                    }
                }
            }

            fn left(&self) -> (&[u8], &[f32]) {
                let map = $build::original::map(&self.buffers);
                (map.working, map.response)
            }
        }
    };
}

original!(
    /// The Rust as it is built by default: i64 tables.
    Default64,
    judge
);
original!(
    /// The Rust with its feature for u32 tables.
    Tables32,
    judge_u32
);
