//! What a file is by its first bytes, and how a picture of another kind becomes one that is taken.

use std::path::Path;

/// What a file says that it is.
#[derive(Clone, Copy, Debug, PartialEq, Eq)]
pub enum Kind {
    /// Binary grey PGM, the one picture that is taken.
    Pgm,
    /// A frame file, or at least its version.
    Frame,
    /// A picture that has to be converted, by its usual name.
    Other(&'static str),
    /// Neither a picture that is known nor a frame file.
    Unknown,
}

/// Openings of pictures that people have.
const OTHERS: [(&[u8], &str); 14] = [
    (b"\x89PNG\r\n\x1a\n", "a PNG picture"),
    (b"\xff\xd8\xff", "a JPEG picture"),
    (b"II*\0", "a TIFF picture"),
    (b"MM\0*", "a TIFF picture"),
    (b"BM", "a BMP picture"),
    (b"GIF8", "a GIF picture"),
    (b"RIFF", "a WebP picture"),
    (b"P1", "a plain bitmap (P1)"),
    (b"P2", "a plain PGM (P2)"),
    (b"P3", "a plain colour picture (P3)"),
    (b"P4", "a bitmap (P4)"),
    (b"P6", "a colour picture (P6)"),
    (b"P7", "a PAM picture (P7)"),
    (b"Pf", "a float picture (PFM)"),
];

/// A frame file begins with its version.
const VERSION: u8 = 1;

pub fn kind(file: &[u8]) -> Kind {
    if file.starts_with(b"P5") {
        return Kind::Pgm;
    }
    match OTHERS.iter().find(|(opening, _)| file.starts_with(opening)) {
        Some((_, name)) => Kind::Other(name),
        None if file.first() == Some(&VERSION) => Kind::Frame,
        None => Kind::Unknown,
    }
}

/// The line that makes an 8-bit grey PGM of a picture.
pub fn conversion(path: &Path) -> String {
    let made = path.with_extension("8bit.pgm");
    format!(
        "convert {} -colorspace Gray -depth 8 {}",
        console::shell(path),
        console::shell(&made)
    )
}
