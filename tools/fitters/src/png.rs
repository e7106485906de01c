//! A small PNG writer: 8 bits a channel, nothing compressed.

const SIGNATURE: [u8; 8] = *b"\x89PNG\r\n\x1a\n";
/// The longest block that deflate stores.
const BLOCK: usize = 65_535;

/// What the bytes of a pixel are: a grey, red and green and blue, or the place of its colour among these.
#[derive(Clone, Copy)]
pub enum Channels<'a> {
    Grey,
    Colour,
    Palette(&'a [[u8; 3]]),
}

impl Channels<'_> {
    fn bytes(self) -> usize {
        match self {
            Channels::Grey | Channels::Palette(_) => 1,
            Channels::Colour => 3,
        }
    }

    /// The number that a picture's head has for it.
    fn number(self) -> u8 {
        match self {
            Channels::Grey => 0,
            Channels::Colour => 2,
            Channels::Palette(_) => 3,
        }
    }
}

/// A picture of at least one pixel, row after row.
pub fn png(width: usize, height: usize, channels: Channels, pixels: &[u8]) -> Vec<u8> {
    let mut head = Vec::new();
    head.extend((width as u32).to_be_bytes());
    head.extend((height as u32).to_be_bytes());
    head.extend([8, channels.number(), 0, 0, 0]);
    let mut out = SIGNATURE.to_vec();
    chunk(&mut out, b"IHDR", &head);
    if let Channels::Palette(colours) = channels {
        chunk(&mut out, b"PLTE", &colours.concat());
    }
    chunk(
        &mut out,
        b"IDAT",
        &stored(&rows(width * channels.bytes(), pixels)),
    );
    chunk(&mut out, b"IEND", &[]);
    out
}

/// Each row with the byte in front that says it is not filtered.
fn rows(length: usize, pixels: &[u8]) -> Vec<u8> {
    let mut out = Vec::with_capacity(pixels.len() + pixels.len() / length + 1);
    for row in pixels.chunks(length) {
        out.push(0);
        out.extend(row);
    }
    out
}

/// A zlib stream of stored blocks.
fn stored(data: &[u8]) -> Vec<u8> {
    let mut out = vec![0x78, 0x01];
    let blocks = data.len().div_ceil(BLOCK);
    for (at, block) in data.chunks(BLOCK).enumerate() {
        let length = block.len() as u16;
        out.push(u8::from(at + 1 == blocks));
        out.extend(length.to_le_bytes());
        out.extend((!length).to_le_bytes());
        out.extend(block);
    }
    out.extend(adler(data).to_be_bytes());
    out
}

fn adler(data: &[u8]) -> u32 {
    let (mut a, mut b) = (1u32, 0u32);
    for byte in data {
        a = (a + u32::from(*byte)) % 65_521;
        b = (b + a) % 65_521;
    }
    b << 16 | a
}

fn chunk(out: &mut Vec<u8>, name: &[u8; 4], data: &[u8]) {
    out.extend((data.len() as u32).to_be_bytes());
    let start = out.len();
    out.extend(name);
    out.extend(data);
    let check = crc(&out[start..]);
    out.extend(check.to_be_bytes());
}

fn crc(data: &[u8]) -> u32 {
    let entry = |byte: u32| {
        (0..8).fold(byte, |crc, _| match crc & 1 {
            0 => crc >> 1,
            _ => 0xEDB8_8320 ^ crc >> 1,
        })
    };
    let table: Vec<u32> = (0..256).map(entry).collect();
    let step = |crc: u32, byte: &u8| table[(crc as u8 ^ byte) as usize] ^ crc >> 8;
    !data.iter().fold(!0, step)
}

/// Bytes as text, for a picture inside a picture.
pub fn base64(data: &[u8]) -> String {
    const LETTERS: &[u8; 64] = b"ABCDEFGHIJKLMNOPQRSTUVWXYZabcdefghijklmnopqrstuvwxyz0123456789+/";
    let mut out = String::with_capacity(data.len().div_ceil(3) * 4);
    for three in data.chunks(3) {
        let byte = |at: usize| u32::from(three.get(at).copied().unwrap_or(0));
        let bits = byte(0) << 16 | byte(1) << 8 | byte(2);
        for at in 0..4 {
            let letter = LETTERS[(bits >> (18 - 6 * at)) as usize & 63];
            out.push(if at <= three.len() {
                letter as char
            } else {
                '='
            });
        }
    }
    out
}
