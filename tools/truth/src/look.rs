//! One frame through the library's map entry, at each blur radius.

use steyrbunk::{Finder, Image, Refusal, Settings};

use crate::tally::{hold, Tally};
use crate::whole::Whole;

/// A blur radius and what was found of the frame's map with it.
pub type Looked = (u32, Tally);

/// The frame's own blur radius does not matter.
pub fn look(
    finder: &mut Finder,
    image: Image,
    settings: &Settings,
    blurs: &[u32],
) -> Result<Vec<Looked>, Refusal> {
    let one = |&blur: &u32| {
        let settings = Settings {
            response_blur_radius: blur,
            ..*settings
        };
        let map = finder.response(image, &settings)?;
        let ray = settings.ray_radius.max(1) as usize;
        let whole = Whole::of(map.working, map.width, map.height, ray);
        Ok((blur, hold(map.response, &whole, blur as usize)))
    };
    blurs.iter().map(one).collect()
}
