//! The frame file of document 01, read where it stands.

use crate::lent::Image;
use crate::refusal::Refusal;
use crate::settings::{PeakFit, Settings};

/// Bytes before the pixels.
pub const HEAD: usize = 20;
/// Bytes before those that the stated length counts.
pub const LEAD: usize = 5;
const VERSION: u8 = 1;

/// A frame file taken apart; the pixels are a part of the file.
#[derive(Clone, Copy, Debug)]
pub struct Frame<'a> {
    pub image: Image<'a>,
    pub settings: Settings,
}

fn u16_at(file: &[u8], at: usize) -> u16 {
    u16::from_be_bytes([file[at], file[at + 1]])
}

fn u32_at(file: &[u8], at: usize) -> u32 {
    u32::from_be_bytes([file[at], file[at + 1], file[at + 2], file[at + 3]])
}

/// Bytes that a file is to have, from its first five.
pub fn stated_length(lead: &[u8; LEAD]) -> u64 {
    u64::from(u32_at(lead, 1)) + LEAD as u64
}

impl<'a> Frame<'a> {
    /// Takes a file apart, or gives 11 to 14. Sizes and settings are for the finder to judge.
    pub fn parse(file: &'a [u8]) -> Result<Frame<'a>, Refusal> {
        if file.len() < HEAD {
            return Err(Refusal::FileTooShort);
        }
        if file[0] != VERSION {
            return Err(Refusal::Version);
        }
        if u32_at(file, 1) as usize != file.len() - LEAD {
            return Err(Refusal::StatedLength);
        }
        let Some(peak_fit) = PeakFit::from_number(file[12]) else {
            return Err(Refusal::Mode);
        };
        Ok(Frame {
            image: Image {
                width: u16_at(file, 5).into(),
                height: u16_at(file, 7).into(),
                pixels: &file[HEAD..],
            },
            settings: Settings {
                ray_radius: file[9].into(),
                image_upsample: file[10].into(),
                response_blur_radius: file[11].into(),
                peak_fit,
                nms_radius: file[13].into(),
                min_cluster_size: u16_at(file, 14).into(),
                threshold_rel: f32::from_bits(u32_at(file, 16)),
            },
        })
    }
}

/// The frame file of a frame, if its fields have room for the sizes and settings.
pub fn bytes(frame: &Frame) -> Option<Vec<u8>> {
    let Frame { image, settings } = frame;
    let byte = |value: u32| u8::try_from(value).ok();
    let side = |value: usize| u16::try_from(value).ok();
    let length = u32::try_from(HEAD - LEAD + image.pixels.len()).ok()?;
    let mut file = vec![VERSION];
    file.extend(length.to_be_bytes());
    file.extend(side(image.width)?.to_be_bytes());
    file.extend(side(image.height)?.to_be_bytes());
    file.push(byte(settings.ray_radius)?);
    file.push(byte(settings.image_upsample)?);
    file.push(byte(settings.response_blur_radius)?);
    file.push(settings.peak_fit.number());
    file.push(byte(settings.nms_radius)?);
    file.extend(u16::try_from(settings.min_cluster_size).ok()?.to_be_bytes());
    file.extend(settings.threshold_rel.to_bits().to_be_bytes());
    file.extend(image.pixels);
    Some(file)
}
