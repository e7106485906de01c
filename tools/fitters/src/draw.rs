//! The corners over the picture, for a person to look at.

use std::fmt::Write;

use steyrbunk::{Corner, Image};

use crate::png::{base64, png, Channels};

/// Small pictures are drawn larger, up to about this many pixels along the longer side.
const COMFORTABLE: usize = 800;
const MARK: [u8; 3] = [230, 0, 30];

/// How many times a picture of these sides is enlarged.
pub fn enlarged(width: usize, height: usize) -> usize {
    (COMFORTABLE / width.max(height).max(1)).max(1)
}

/// The middle of pixel 0 is place 0; in a drawing its edge is.
fn drawn(place: f32) -> f32 {
    place + 0.5
}

/// The picture inside, and a ring with a cross at each corner.
pub fn svg(image: Image, corners: &[Corner]) -> Vec<u8> {
    let Image {
        pixels,
        width,
        height,
    } = image;
    let (scale, picture) = (
        enlarged(width, height),
        base64(&png(width, height, Channels::Grey, pixels)),
    );
    // Marks of the same size on the screen, whatever the picture's size.
    let unit = 1.0 / scale as f32;
    let mut text = format!(
        "<svg xmlns=\"http://www.w3.org/2000/svg\" width=\"{}\" height=\"{}\" viewBox=\"0 0 {width} {height}\">\n\
         <image width=\"{width}\" height=\"{height}\" style=\"image-rendering:pixelated\" \
         href=\"data:image/png;base64,{picture}\"/>\n\
         <g fill=\"none\" stroke=\"#e6001e\" stroke-width=\"{unit}\">\n",
        scale * width,
        scale * height,
    );
    let (arm, ring) = (5.0 * unit, 3.0 * unit);
    for corner in corners {
        let (x, y) = (drawn(corner.x), drawn(corner.y));
        let (left, above, across) = (x - arm, y - arm, 2.0 * arm);
        writeln!(
            text,
            "<path d=\"M{left} {y}h{across}M{x} {above}v{across}\"/><circle cx=\"{x}\" cy=\"{y}\" r=\"{ring}\">\
             <title>{} {} {}</title></circle>",
            corner.x, corner.y, corner.strength
        )
        .expect("a string takes all");
    }
    text.push_str("</g>\n</svg>\n");
    text.into_bytes()
}

/// The picture, enlarged if it is small, with a cross at each corner.
pub fn picture(image: Image, corners: &[Corner]) -> Vec<u8> {
    let scale = enlarged(image.width, image.height);
    let (width, height) = (scale * image.width, scale * image.height);
    let mut canvas = Vec::with_capacity(3 * width * height);
    for y in 0..height {
        for x in 0..width {
            canvas.extend([image.pixels[y / scale * image.width + x / scale]; 3]);
        }
    }
    let mut mark = |x: i64, y: i64| {
        if (0..width as i64).contains(&x) && (0..height as i64).contains(&y) {
            let at = 3 * (y as usize * width + x as usize);
            canvas[at..at + 3].copy_from_slice(&MARK);
        }
    };
    for corner in corners {
        let at = |place: f32| (drawn(place) * scale as f32).floor() as i64;
        let (x, y) = (at(corner.x), at(corner.y));
        for arm in -6..=6 {
            mark(x + arm, y);
            mark(x, y + arm);
        }
    }
    png(width, height, Channels::Colour, &canvas)
}
