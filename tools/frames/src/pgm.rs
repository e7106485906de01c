//! Pictures in PGM, binary and 8-bit, taken with distrust.

use steyrbunk::Image;

/// What is wrong with a picture.
pub enum Damage {
    /// More than eight bits a pixel.
    Deep(String),
    Broken(String),
}

impl From<String> for Damage {
    fn from(text: String) -> Damage {
        Damage::Broken(text)
    }
}

/// The picture in a file that begins with P5, its pixels read where they stand, or what is wrong with it.
pub fn parse(file: &[u8]) -> Result<Image<'_>, Damage> {
    let mut at = 2;
    let width = number(file, &mut at, "width")?;
    let height = number(file, &mut at, "height")?;
    let most = number(file, &mut at, "greatest value")?;
    match most {
        1..=255 => {}
        256..=65_535 => {
            return Err(Damage::Deep(format!(
                "a 16-bit PGM (greatest value {most})"
            )))
        }
        _ => return Err(format!("a greatest value of {most}").into()),
    }
    if width == 0 || height == 0 {
        return Err(format!("no picture: {width} by {height} pixels").into());
    }
    let image = |pixels| Image {
        pixels,
        width: width as usize,
        height: height as usize,
    };
    // The finder's to refuse; no pixels are looked for.
    if width as usize > limits::SIDE || height as usize > limits::SIDE {
        return Ok(image(&[]));
    }
    // One white space stands before the pixels.
    let rest = match file.get(at) {
        Some(byte) if byte.is_ascii_whitespace() => &file[at + 1..],
        Some(_) => return Err("no white space after the greatest value".to_string().into()),
        None => &[],
    };
    let needed = width as usize * height as usize;
    let pixels = whole(rest, needed)
        .or_else(|| whole(after_comment(rest)?, needed))
        .ok_or_else(|| wrong_length(width, height, needed, rest.len()))?;
    match pixels.iter().max() {
        Some(pixel) if u32::from(*pixel) > most => {
            Err(format!("a pixel of {pixel} above the greatest value {most}").into())
        }
        _ => Ok(image(pixels)),
    }
}

/// The pixels, if there are as many as needed; one line feed may follow them.
fn whole(rest: &[u8], needed: usize) -> Option<&[u8]> {
    match rest.strip_suffix(b"\n") {
        _ if rest.len() == needed => Some(rest),
        Some(pixels) if pixels.len() == needed => Some(pixels),
        _ => None,
    }
}

/// What follows a comment behind the greatest value. A pixel may look like its sign, so that only the length tells.
fn after_comment(rest: &[u8]) -> Option<&[u8]> {
    let text = rest.trim_ascii_start();
    let end = text
        .strip_prefix(b"#")?
        .iter()
        .position(|byte| *byte == b'\n')?;
    Some(&text[end + 2..])
}

fn wrong_length(width: u32, height: u32, needed: usize, there: usize) -> Damage {
    let text = if there < needed {
        format!("cut off: {width} by {height} pixels need {needed} bytes, {there} are there")
    } else {
        format!(
            "{} bytes follow the {width} by {height} pixels",
            there - needed
        )
    };
    text.into()
}

/// A number of the opening, after white space and comments.
fn number(file: &[u8], at: &mut usize, name: &str) -> Result<u32, String> {
    let start = *at;
    loop {
        match file.get(*at) {
            Some(byte) if byte.is_ascii_whitespace() => *at += 1,
            Some(b'#') => {
                let line = file[*at..].iter().position(|byte| *byte == b'\n');
                *at = line.map_or(file.len(), |end| *at + end + 1);
            }
            _ => break,
        }
    }
    let digits = file[*at..]
        .iter()
        .take_while(|byte| byte.is_ascii_digit())
        .count();
    let text = String::from_utf8_lossy(&file[*at..*at + digits]);
    if *at == start || digits == 0 {
        return Err(format!("damaged opening: no {name}"));
    }
    *at += digits;
    text.parse()
        .map_err(|_| format!("damaged opening: {name} has {digits} digits"))
}
