//! The frame file of document 01: its fields, taken apart and put together.

/// Bytes before the pixels.
pub const HEAD: usize = 20;
/// Bytes before those that the stated length counts.
pub const LEAD: usize = 5;

/// One frame file, field by field; the threshold as its bits, so that a NaN keeps its payload.
#[derive(Clone, Debug, PartialEq, Eq)]
pub struct Frame {
    pub width: u16,
    pub height: u16,
    pub ray: u8,
    pub upsampling: u8,
    pub blur: u8,
    pub mode: u8,
    pub suppression: u8,
    pub least: u16,
    pub threshold: u32,
    pub pixels: Vec<u8>,
}

fn u16_at(bytes: &[u8], at: usize) -> u16 {
    u16::from_be_bytes([bytes[at], bytes[at + 1]])
}

fn u32_at(bytes: &[u8], at: usize) -> u32 {
    u32::from_be_bytes([bytes[at], bytes[at + 1], bytes[at + 2], bytes[at + 3]])
}

impl Frame {
    /// Takes a file apart, or answers 11 to 14.
    pub fn parse(bytes: &[u8]) -> Result<Frame, u32> {
        if bytes.len() < HEAD {
            return Err(11);
        }
        if bytes[0] != 1 {
            return Err(12);
        }
        if u32_at(bytes, 1) as usize != bytes.len() - LEAD {
            return Err(13);
        }
        if bytes[12] > 1 {
            return Err(14);
        }
        Ok(Frame {
            width: u16_at(bytes, 5),
            height: u16_at(bytes, 7),
            ray: bytes[9],
            upsampling: bytes[10],
            blur: bytes[11],
            mode: bytes[12],
            suppression: bytes[13],
            least: u16_at(bytes, 14),
            threshold: u32_at(bytes, 16),
            pixels: bytes[HEAD..].to_vec(),
        })
    }

    /// The file of this frame, its length stated as it is.
    pub fn bytes(&self) -> Vec<u8> {
        let mut out = Vec::with_capacity(HEAD + self.pixels.len());
        out.push(1);
        out.extend(((HEAD - LEAD + self.pixels.len()) as u32).to_be_bytes());
        out.extend(self.width.to_be_bytes());
        out.extend(self.height.to_be_bytes());
        out.extend([
            self.ray,
            self.upsampling,
            self.blur,
            self.mode,
            self.suppression,
        ]);
        out.extend(self.least.to_be_bytes());
        out.extend(self.threshold.to_be_bytes());
        out.extend(&self.pixels);
        out
    }

    /// The upsampling factor in force: 0 counts as 1, 3 or more as 2.
    pub fn factor(&self) -> usize {
        self.upsampling.clamp(1, 2) as usize
    }

    /// The ray radius in force: 0 counts as 1.
    pub fn radius(&self) -> usize {
        self.ray.max(1) as usize
    }

    /// Ray + suppression + 1, in working pixels.
    pub fn border(&self) -> usize {
        self.radius() + self.suppression as usize + 1
    }

    pub fn working(&self) -> (usize, usize) {
        (
            self.width as usize * self.factor(),
            self.height as usize * self.factor(),
        )
    }

    pub fn fraction(&self) -> f32 {
        f32::from_bits(self.threshold)
    }
}

/// Cuts an archive, frame files end to end, by their stated lengths; a last cut file is kept as it is.
pub fn split(archive: &[u8]) -> Vec<&[u8]> {
    let mut files = Vec::new();
    let mut rest = archive;
    while !rest.is_empty() {
        let stated = if rest.len() < LEAD {
            0
        } else {
            u32_at(rest, 1) as usize
        };
        let (file, after) = rest.split_at(stated.saturating_add(LEAD).min(rest.len()));
        files.push(file);
        rest = after;
    }
    files
}

/// Document 01's frame: one saddle, seven by seven.
pub fn document_frame() -> Frame {
    let pixel = |at: i32| match (at % 7 - 3) * (at / 7 - 3) {
        product if product > 0 => 200,
        0 => 100,
        _ => 0,
    };
    Frame {
        width: 7,
        height: 7,
        ray: 1,
        upsampling: 1,
        blur: 0,
        mode: 0,
        suppression: 1,
        least: 2,
        threshold: 0x3E8F_5C29,
        pixels: (0..49).map(pixel).collect(),
    }
}
