//! Root and logarithm beside the platform's: times, and how far they lie apart.

use std::hint::black_box;

use judge::random::Random;
use steyrbunk::scalar::{ln, sqrt};

use crate::clock::{self, timed};
use crate::library::Library;
use crate::table::median;

const MANY: usize = 65_536;

/// The ends of the logarithm's range.
const LEAST: f32 = 0.015625;
const MOST: f32 = 16_777_216.0;

/// Patterns drawn evenly from a range: every binade has as many.
fn numbers(low: f32, high: f32) -> Vec<f32> {
    let (low, high) = (low.to_bits() as usize, high.to_bits() as usize);
    let mut random = Random::new(1, 0);
    let mut number = || f32::from_bits(random.range(low, high) as u32);
    (0..MANY).map(|_| number()).collect()
}

/// Whether the logarithms of two builds differ anywhere among the numbers that are timed.
pub fn differ([before, after]: &[Library; 2]) -> bool {
    let differs = |x: &f32| before.ln(*x).to_bits() != after.ln(*x).to_bits();
    numbers(LEAST, MOST).iter().any(differs)
}

/// Nanoseconds a call, of one run over all numbers; each step gets the bits of the last result to go on from.
fn run(numbers: &[f32], step: impl Fn(u32, f32) -> u32) -> f64 {
    timed(|| {
        black_box(numbers.iter().fold(0, |last, x| step(last, *x)));
    }) / numbers.len() as f64
}

/// Every number by itself, so that calls overlap as they do in a loop over an image.
fn alone(numbers: &[f32], call: impl Fn(f32) -> f32) -> f64 {
    run(numbers, |last, x| last ^ call(x).to_bits())
}

/// Each call waiting for the one before it, by a mask that is 0, which the processor cannot know.
fn chained(numbers: &[f32], call: impl Fn(f32) -> f32) -> f64 {
    let mask = |x: f32, last: u32| f32::from_bits(x.to_bits() ^ (last & black_box(0)));
    run(numbers, |last, x| call(mask(x, last)).to_bits())
}

fn line(name: &str, numbers: &[f32], repeats: usize, call: impl Fn(f32) -> f32) {
    let runs = |one: &dyn Fn() -> f64| median(&(0..repeats).map(|_| one()).collect::<Vec<f64>>());
    let [alone, chained] = [
        runs(&|| alone(numbers, &call)),
        runs(&|| chained(numbers, &call)),
    ];
    println!("| {name} | {alone:.1} | {chained:.1} |");
}

/// The logarithms of two builds and the platform's, turn by turn.
pub fn both(libraries: &[Library; 2], repeats: usize) {
    let logs = numbers(LEAST, MOST);
    let [before, after] = libraries;
    let platform = |x: f32| black_box(x).ln();
    let calls: [&dyn Fn(f32) -> f32; 3] = [&|x| before.ln(x), &|x| after.ln(x), &platform];
    println!(
        "Medians of {repeats} turns over {MANY} numbers, {}, ns a call; the ratio is the median of the turns' own.\n",
        clock::NAME
    );
    println!("| Logarithm | Before | After | After / before | The platform's |");
    println!("|---|---:|---:|---:|---:|");
    let ways: [(&str, &dyn Fn(&dyn Fn(f32) -> f32) -> f64); 2] = [
        ("each by itself", &|call| alone(&logs, call)),
        ("in a chain", &|call| chained(&logs, call)),
    ];
    for (name, way) in ways {
        // Which of them goes first changes from turn to turn.
        let turn = |at: usize| {
            let mut times = [0.0; 3];
            (0..3)
                .map(|k| (at + k) % 3)
                .for_each(|k| times[k] = way(calls[k]));
            times
        };
        let turns: Vec<[f64; 3]> = (0..repeats).map(turn).collect();
        let middle =
            |of: &dyn Fn(&[f64; 3]) -> f64| median(&turns.iter().map(of).collect::<Vec<f64>>());
        println!(
            "| {name} | {:.2} | {:.2} | {:.3} | {:.2} |",
            middle(&|turn| turn[0]),
            middle(&|turn| turn[1]),
            middle(&|turn| turn[1] / turn[0]),
            middle(&|turn| turn[2]),
        );
    }
}

pub fn times(repeats: usize) {
    let (roots, logs) = (numbers(f32::MIN_POSITIVE, f32::MAX), numbers(LEAST, MOST));
    let subnormal = |i: usize| f32::from_bits(1 << (i * 7 % 23));
    let tiny: Vec<f32> = (0..MANY).map(subnormal).collect();
    println!(
        "Medians of {repeats} runs over {MANY} numbers, {}, ns a call.\n",
        clock::NAME
    );
    println!("| Function | Each by itself | In a chain |");
    println!("|---|---:|---:|");
    line("sqrt, normal numbers", &roots, repeats, sqrt);
    line("sqrt, subnormal numbers", &tiny, repeats, sqrt);
    line("the platform's sqrt", &roots, repeats, |x| {
        black_box(x).sqrt()
    });
    line("ln", &logs, repeats, ln);
    line("the platform's ln", &logs, repeats, |x| black_box(x).ln());
}

/// A greatest distance so far, and where.
struct Far(f64, f32);

impl Far {
    fn take(&mut self, distance: f64, x: f32) {
        if distance > self.0 {
            *self = Far(distance, x);
        }
    }

    fn print(&self, of: &str) {
        let Far(distance, x) = self;
        println!("  {of} {distance:.4e}, at {x:e} ({:08X})", x.to_bits());
    }
}

/// How far a logarithm lies from another within one doubling, of so many numbers.
#[derive(Default)]
struct Doubling {
    numbers: u64,
    greatest: f64,
    /// Of all numbers, each with its sign.
    sum: f64,
}

impl Doubling {
    fn take(&mut self, distance: f64) {
        self.numbers += 1;
        self.greatest = self.greatest.max(distance.abs());
        self.sum += distance;
    }
}

/// What is measured of one logarithm.
struct Measured<'a> {
    call: &'a dyn Fn(f32) -> f32,
    numbers: u64,
    /// Of these, the platform's to the bit.
    equal: u64,
    platform: Far,
    exact: Far,
    near_one: Far,
    /// From 2^-6 up; the last holds 2^24 alone.
    doublings: Vec<Doubling>,
}

impl<'a> Measured<'a> {
    fn new(call: &'a dyn Fn(f32) -> f32) -> Self {
        let [platform, exact, near_one] = [(); 3].map(|()| Far(0.0, 0.0));
        Measured {
            call,
            numbers: 0,
            equal: 0,
            platform,
            exact,
            near_one,
            doublings: (FIRST..=LAST).map(|_| Doubling::default()).collect(),
        }
    }

    fn take(&mut self, x: f32, doubling: usize, platform: f64, exact: f64) {
        let ours = f64::from((self.call)(x));
        self.numbers += 1;
        self.equal += u64::from(ours == platform);
        self.platform.take((ours - platform).abs(), x);
        self.exact.take((ours - exact).abs(), x);
        if (0.5..=2.0).contains(&x) {
            self.near_one.take((ours - exact).abs(), x);
        }
        self.doublings[doubling].take(ours - exact);
    }

    fn print(&self) {
        // The platform's own is not held against itself.
        if self.equal < self.numbers {
            let (equal, numbers) = (self.equal, self.numbers);
            println!("  {equal} of {numbers} equal to the platform's");
            self.platform.print("greatest distance from the platform's");
        }
        self.exact.print("greatest distance from the true one");
        self.near_one.print("the same from 1/2 to 2");
    }
}

/// The doublings of the range: from 2^-6 to 2^24.
const FIRST: i32 = -6;
const LAST: i32 = 24;

pub fn distances(libraries: Option<&[Library; 2]>) {
    let finite = 0..f32::INFINITY.to_bits();
    let all = finite.len();
    let differs = |x: &f32| sqrt(*x).to_bits() != x.sqrt().to_bits();
    let roots = finite.map(f32::from_bits).filter(differs).count();
    println!("sqrt: {roots} of {all} finite numbers from +0 up differ from the platform's");
    match libraries {
        None => logs(&["ours"], &[&ln]),
        Some([before, after]) => logs(&["before", "after"], &[&|x| before.ln(x), &|x| after.ln(x)]),
    }
}

/// Every f32 of the range, by each of the logarithms.
fn logs(names: &[&str], calls: &[&dyn Fn(f32) -> f32]) {
    let platform = |x: f32| x.ln();
    let mut measured: Vec<Measured> = calls.iter().map(|call| Measured::new(*call)).collect();
    // The platform's own, for its distance from the true one.
    measured.push(Measured::new(&platform));
    for bits in LEAST.to_bits()..=MOST.to_bits() {
        let (x, doubling) = (f32::from_bits(bits), (bits - LEAST.to_bits()) >> 23);
        let (platform, exact) = (f64::from(x.ln()), f64::from(x).ln());
        for log in &mut measured {
            log.take(x, doubling as usize, platform, exact);
        }
    }
    let names = || names.iter().copied().chain(["the platform's"]);
    for (name, log) in names().zip(&measured) {
        println!("\nln, {name}:");
        log.print();
    }
    println!("\nFrom the true logarithm, doubling by doubling:\n");
    let columns = |what: &str| {
        names()
            .map(|name| format!(" {what}, {name} |"))
            .collect::<String>()
    };
    println!("| From |{}{}", columns("greatest"), columns("mean"));
    println!("|---|{}", "---:|".repeat(2 * measured.len()));
    for (at, power) in (FIRST..LAST).enumerate() {
        let each = |of: &dyn Fn(&Doubling) -> String| {
            let cells = measured.iter().map(|log| of(&log.doublings[at]));
            cells.collect::<String>()
        };
        let greatest = each(&|d| format!(" {:.2e} |", d.greatest));
        let mean = each(&|d| format!(" {:+.2e} |", d.sum / d.numbers as f64));
        println!("| 2^{power} |{greatest}{mean}");
    }
}
