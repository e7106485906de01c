//! Finds the corners of a board that the example draws itself, with the default settings, says what became of the other pixels, keeps
//! the corners as a record and reads it back.

use steyrbunk::{record, Finder, Found, Image, Refusal, Settings, Verdict, Verdicts};

/// How many candidates failed which rule first, or were kept.
fn told(verdicts: Verdicts) {
    for verdict in Verdict::ALL {
        println!("{} {}", verdicts.of(verdict), verdict.words());
    }
}

/// What would be kept in a file, and read again years later.
fn kept(found: &Found) -> Result<Found, Refusal> {
    let bytes = record::bytes(found)?;
    println!("{} bytes to be kept", bytes.len());
    record::parse(&bytes)
}

fn main() {
    let (width, height) = (64, 48);
    let cell = |at: usize| (at % width + 3) / 16 + (at / width + 8) / 16;
    let pixels: Vec<u8> = (0..width * height)
        .map(|at| [40, 120][cell(at) % 2])
        .collect();

    // One finder for many frames: it keeps its buffers.
    let mut finder = Finder::new();
    let image = Image {
        pixels: &pixels,
        width,
        height,
    };
    let found = finder.find(image, &Settings::default());
    told(finder.verdicts());
    match found.and_then(|found| kept(&found)) {
        Ok(found) => {
            for corner in &found.corners {
                println!("{} {} {}", corner.x, corner.y, corner.strength);
            }
        }
        Err(refusal) => eprintln!("{refusal}"),
    }
}
