//! Sweeps four-pixel values and counts where the original's upsampling leaves document 01's rule.

use std::time::Instant;
use std::{env, process};

use judge::upsampled::{differing, sweep, PAIRS};
use judge::Detector;

const HELP: &str = "\
upsampling [--every N] [--from K]
Factor 2: all 256 values of equal pixels, then all 65,536 upper pairs of pixels over each
N-th lower pair from the K-th on; N is 16 and K is 0 if not given, and N 1 sweeps all 2^32.
";

fn leave(status: i32) -> ! {
    eprint!("{HELP}");
    process::exit(status)
}

fn options() -> (usize, usize) {
    let (mut every, mut from) = (16, 0);
    let mut words = env::args().skip(1);
    while let Some(word) = words.next() {
        let mut number = || {
            words
                .next()
                .and_then(|word| word.parse().ok())
                .unwrap_or_else(|| leave(2))
        };
        match word.as_str() {
            "--every" => every = number(),
            "--from" => from = number(),
            "--help" => leave(0),
            _ => leave(2),
        }
    }
    (every.max(1), from)
}

fn main() {
    let (every, from) = options();
    let mut detector = Detector::new();
    let equal = (0..=255u8).map(|value| differing(&mut detector, vec![value; 4], 2, 2));
    println!(
        "equal pixels: 256 values, {} working pixels differ",
        equal.sum::<usize>()
    );
    let steps: Vec<usize> = (from..PAIRS).step_by(every).collect();
    let begin = Instant::now();
    let swept = sweep(&steps);
    println!(
        "upper pairs: all {PAIRS}, each over {} lower pairs",
        steps.len()
    );
    println!("four-pixel values: {} of {}", swept.fours, 1u64 << 32);
    println!("working pixels compared: {}", swept.compared);
    println!("differ: {}", swept.differ);
    println!("seconds: {:.1}", begin.elapsed().as_secs_f64());
    process::exit(i32::from(swept.differ > 0));
}
