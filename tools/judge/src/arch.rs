//! Arches: frame files end to end, what each camera is due by document 02, and a maker of seeded ones.

use crate::frame::LEAD;
use crate::maker::{damaged, made, Sizes};
use crate::random::Random;

/// What each camera is due: a single call with its file, or a refusal. "that many frame files laid end to end in one slice ..
/// the next begins after its stated length. Where that length runs past the end, that frame answers 13, whatever else is wrong
/// with it; with under five bytes left it answers 11; either way the later ones answer 11."
pub fn dues(cameras: usize, frames: &[u8]) -> Vec<Result<&[u8], u32>> {
    let mut dues = Vec::new();
    let mut rest = frames;
    while dues.len() < cameras && rest.len() >= LEAD {
        let stated = rest[1..LEAD]
            .iter()
            .fold(0u128, |sum, byte| 256 * sum + u128::from(*byte));
        if stated + LEAD as u128 > rest.len() as u128 {
            dues.push(Err(13));
            break;
        }
        let (file, behind) = rest.split_at(LEAD + stated as usize);
        dues.push(Ok(file));
        rest = behind;
    }
    dues.resize(cameras, Err(11));
    dues
}

/// The camera count and the frames of a seeded arch; one file in ten is damaged.
pub fn made_arch(seed: u64, index: u64, sizes: Sizes) -> (usize, Vec<u8>) {
    let random = &mut Random::new(seed, index);
    let cameras = random.range(2, 8);
    let mut file = |_| match random.percent(10) {
        true => damaged(seed, random.next()),
        false => made(seed, random.next(), sizes).frame.bytes(),
    };
    let files: Vec<Vec<u8>> = (0..cameras).map(&mut file).collect();
    (cameras, laid(random, &files))
}

/// Files end to end: as they are, cut, with one that states a length past the end, or with bytes behind them.
pub fn laid(random: &mut Random, files: &[Vec<u8>]) -> Vec<u8> {
    let mut frames = files.concat();
    match random.below(10) {
        0 => frames.truncate(random.below(frames.len() + 1)),
        1 => frames.truncate(files[..files.len() - 1].concat().len() + random.below(8)),
        2 => {
            let begin = files[..random.below(files.len())].concat().len();
            let past = [0xFFFF_FFFF, 0xFFFF_FFFB, 0xFFFF_FFFA, 0x8000_0000, 70_000];
            if let Some(stated) = frames.get_mut(begin + 1..begin + LEAD) {
                stated.copy_from_slice(&u32::to_be_bytes(random.pick(&past)));
            }
        }
        3 | 4 => frames.extend((0..random.below(40)).map(|_| random.byte())),
        _ => {}
    }
    frames
}
