//! What is timed.

use limits::BLUR;
use steyrbunk::Settings;

#[derive(Clone, Copy, PartialEq)]
pub enum Pass {
    /// The single passes of the map: working image; four tables and response; blur.
    Upsample,
    Rays,
    Blur(u32),
    /// The map at a blur, the list, and both.
    Map(u32),
    List,
    Whole,
}

impl Pass {
    /// All of them, in the table's order.
    pub fn all() -> impl Iterator<Item = Pass> {
        let single = [Pass::Upsample, Pass::Rays].into_iter();
        let single = single.chain((1..=BLUR).map(Pass::Blur));
        let calls = (0..=BLUR).map(Pass::Map);
        single.chain(calls).chain([Pass::List, Pass::Whole])
    }

    /// Whether it is a pass of the map, which the finder's library does not export.
    pub fn is_single(self) -> bool {
        matches!(self, Pass::Upsample | Pass::Rays | Pass::Blur(_))
    }

    pub fn name(self) -> String {
        match self {
            Pass::Upsample => "working image".to_string(),
            Pass::Rays => "tables and response".to_string(),
            Pass::Blur(radius) => format!("blur {radius}"),
            Pass::Map(0) => "map, no blur".to_string(),
            Pass::Map(radius) => format!("map, blur {radius}"),
            Pass::List => "list".to_string(),
            Pass::Whole => "whole".to_string(),
        }
    }

    /// The settings of the call at that factor, but for the blur of a map.
    pub fn settings(self, base: Settings, factor: u32) -> Settings {
        let mut settings = Settings {
            image_upsample: factor,
            ..base
        };
        if let Pass::Map(radius) | Pass::Blur(radius) = self {
            settings.response_blur_radius = radius;
        }
        settings
    }

    /// Bytes that ours reads and writes if each pass goes over its buffers once: upsampling reads the
    /// image and writes a byte a pixel; the tables read that and write 16; the response reads 16 and
    /// writes 4; each of two blurs reads and writes 4; the list reads 4 for the maximum, 4 for the
    /// candidates, and the working image.
    pub fn moved(self, input: usize, working: usize) -> usize {
        let moved = |pass: Pass| pass.moved(input, working);
        match self {
            Pass::Upsample => input + working,
            Pass::Rays => (1 + 16 + 16 + 4) * working,
            Pass::Blur(_) => 16 * working,
            Pass::Map(0) => moved(Pass::Upsample) + moved(Pass::Rays),
            Pass::Map(radius) => moved(Pass::Map(0)) + moved(Pass::Blur(radius)),
            Pass::List => 9 * working,
            Pass::Whole => moved(Pass::Map(1)) + moved(Pass::List),
        }
    }
}
