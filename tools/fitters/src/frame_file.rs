//! The frame file of a picture with settings, so that every program reads the very same bytes.

use std::io::{self, Write};
use std::process::ExitCode;

use console::{no_terminal, shown, Usage, LONGEST};
use frames::{Kind, Problem};
use steyrbunk::frame::Frame;

use crate::gather::INPUT;
use crate::options::FrameCall;

/// What the program `corners` has room for.
const PROGRAM_BYTES: usize = 2_324;
const PROGRAM_PIXELS: usize = 2_304;

pub fn write(call: &FrameCall) -> Result<ExitCode, Usage> {
    no_terminal("a frame file", "dawn.frame")?;
    let made = made(call).and_then(|file| {
        let mut out = io::stdout().lock();
        out.write_all(&file).and_then(|()| out.flush())?;
        Ok(())
    });
    match made {
        Ok(()) => Ok(ExitCode::SUCCESS),
        Err(problem) => {
            eprintln!("{}: {problem}", shown(&call.picture));
            Ok(ExitCode::from(1))
        }
    }
}

fn made(call: &FrameCall) -> Result<Vec<u8>, Problem> {
    let too_long = || Problem::Damaged("longer than any picture that is taken".to_string());
    let file = if call.picture.as_os_str() == INPUT {
        console::read_input(LONGEST)?.ok_or_else(too_long)?
    } else {
        console::read(&call.picture, LONGEST)?.ok_or_else(too_long)?
    };
    if frames::kind(&file) == Kind::Frame {
        return Err(Problem::Damaged("is a frame file already".to_string()));
    }
    let frame = frames::open(&call.picture, &file, &call.named, false)?;
    let made = frames::file(&frame)?;
    if let Some(limit) = missed(&frame, made.len()) {
        eprintln!("{}: note: {limit}", shown(&call.picture));
    }
    Ok(made)
}

/// The first limit of size, in the program's order, that a frame does not keep.
fn missed(frame: &Frame, length: usize) -> Option<String> {
    let Frame { image, settings } = frame;
    let (factor, side) = (settings.factor(), settings.least_side());
    let pixels = image.width * image.height * factor * factor;
    if length > PROGRAM_BYTES {
        Some(format!(
            "{length} bytes: the program `corners` has room for {PROGRAM_BYTES} and answers 10"
        ))
    } else if image.width.min(image.height) < side {
        Some(format!(
            "too small to judge, 15: with these settings each side needs {side} pixels or more"
        ))
    } else if pixels > PROGRAM_PIXELS {
        Some(format!(
            "{pixels} working pixels: the program `corners` has room for {PROGRAM_PIXELS} and answers 9"
        ))
    } else {
        None
    }
}
