//! The table for docs/BENCHMARKS.md.

use crate::clock;

/// Nanoseconds of each repeat: ours, the Rust by default, the Rust with u32 tables; and the copy.
#[derive(Default)]
pub struct Times {
    sides: [Vec<f64>; 3],
    copy: Vec<f64>,
}

impl Times {
    pub fn add(&mut self, sides: [f64; 3], copy: f64) {
        self.sides
            .iter_mut()
            .zip(sides)
            .for_each(|(all, one)| all.push(one));
        self.copy.push(copy);
    }
}

pub fn median(times: &[f64]) -> f64 {
    let mut sorted = times.to_vec();
    sorted.sort_by(f64::total_cmp);
    let middle = sorted.len() / 2;
    if sorted.len() % 2 == 1 {
        sorted[middle]
    } else {
        (sorted[middle - 1] + sorted[middle]) / 2.0
    }
}

/// One size, one pass.
pub struct Row {
    pub size: String,
    pub pass: String,
    pub working: usize,
    /// Where the pass finds any.
    pub corners: Option<usize>,
    pub moved: usize,
    pub times: Times,
}

pub fn open(repeats: usize, picture: &str, suppression: u32) {
    let (arch, system) = (std::env::consts::ARCH, std::env::consts::OS);
    println!(
        "Medians of {repeats} calls, {}, one thread, release builds, {arch} {system}.",
        clock::NAME
    );
    println!(
        "Picture: {picture}; suppression {suppression}. Buffers are kept from call to call and not cleared, on all sides."
    );
    println!();
    println!("| Frame and factor | Pass | Corners | Ours, ns a working pixel | Rust, default | Rust, u32 tables | Default / ours | u32 / ours | Bytes moved a working pixel | Ours / a copy that moves as much |");
    println!("|---|---|---:|---:|---:|---:|---:|---:|---:|---:|");
}

impl Row {
    pub fn print(&self) {
        let [ours, default, tables] = [0, 1, 2].map(|side| median(&self.times.sides[side]));
        let copy = median(&self.times.copy);
        let pixels = self.working as f64;
        println!(
            "| {} | {} | {} | {:.2} | {:.2} | {:.2} | {:.2} | {:.2} | {:.1} | {:.1} |",
            self.size,
            self.pass,
            self.corners
                .map_or(String::new(), |count| count.to_string()),
            ours / pixels,
            default / pixels,
            tables / pixels,
            default / ours,
            tables / ours,
            self.moved as f64 / pixels,
            ours / copy,
        );
    }
}

pub fn close(passes: bool) {
    println!();
    if !passes {
        println!("The single passes are left out: build them by tools/passes ../passes, then bench again.");
    }
    println!("A working pixel is one after upsampling. Ratios above 1 mean that ours is faster. The copy reads and");
    println!("writes half of the bytes moved each, so that it moves as many.");
}
