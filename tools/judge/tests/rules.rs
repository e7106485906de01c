//! Document 01's rules written again from its text, held against the original over made frames.

use judge::{accepted, made, mapped, run, Frame, Mapped, Room, Sizes, TOO_SMALL};

/// More frames on request: JUDGE_FRAMES=100000 cargo test --release --test rules
fn frames() -> u64 {
    std::env::var("JUDGE_FRAMES").map_or(2_000, |count| count.parse().unwrap())
}

/// A map as rows.
type Grid<T> = Vec<Vec<T>>;

fn grid<T>(w: usize, h: usize, mut at: impl FnMut(usize, usize) -> T) -> Grid<T> {
    (0..h).map(|y| (0..w).map(|x| at(x, y)).collect()).collect()
}

fn upsampled(frame: &Frame) -> Grid<i64> {
    let (width, height) = (frame.width as usize, frame.height as usize);
    let pixel =
        |x: usize, y: usize| i64::from(frame.pixels[y.min(height - 1) * width + x.min(width - 1)]);
    let (w, h) = frame.working();
    if frame.factor() == 1 {
        return grid(w, h, pixel);
    }
    grid(w, h, |x, y| {
        let (a, b) = ((x % 2) as i64, (y % 2) as i64);
        let (x, y) = (x / 2, y / 2);
        let above = (2 - a) * pixel(x, y) + a * pixel(x + 1, y);
        let below = (2 - a) * pixel(x, y + 1) + a * pixel(x + 1, y + 1);
        ((2 - b) * above + b * below + 2) / 4
    })
}

/// The sum from a pixel back along a line, as far as the image goes.
fn back(image: &Grid<i64>, w: usize, h: usize, dx: i64, dy: i64) -> Vec<u32> {
    let inside = |x: i64, y: i64| x >= 0 && y >= 0 && x < w as i64 && y < h as i64;
    let sums = grid(w, h, |x, y| {
        let (mut x, mut y, mut sum) = (x as i64, y as i64, 0);
        while inside(x, y) {
            sum += image[y as usize][x as usize];
            (x, y) = (x - dx, y - dy);
        }
        sum as u32
    });
    sums.concat()
}

fn response(image: &Grid<i64>, w: usize, h: usize, r: usize) -> Grid<f32> {
    let ray = |x: usize, y: usize, dx: i64, dy: i64| -> i64 {
        let along = -(r as i64)..=r as i64;
        let at = |k: i64| image[(y as i64 + k * dy) as usize][(x as i64 + k * dx) as usize];
        along.map(at).sum()
    };
    grid(w, h, |x, y| {
        if x < r || y < r || x + r >= w || y + r >= h {
            return 0.0;
        }
        let rays = [
            ray(x, y, 1, 0),
            ray(x, y, 0, 1),
            ray(x, y, 1, 1),
            ray(x, y, 1, -1),
        ];
        let spread = rays.iter().max().unwrap() - rays.iter().min().unwrap();
        // One rounding at most, and then none: the whole number comes back.
        let square = (spread * spread) as f32;
        assert_eq!(square as i64, spread * spread);
        square
    })
}

/// First and last of a window cut at the edges.
fn window(at: usize, radius: usize, length: usize) -> std::ops::Range<usize> {
    at.saturating_sub(radius)..(at + radius + 1).min(length)
}

fn rows_blurred(map: &Grid<f32>, w: usize, h: usize, radius: usize) -> Grid<f32> {
    grid(w, h, |x, y| {
        let window = window(x, radius, w);
        let count = window.len() as f32;
        window.fold(0.0, |sum, x| sum + map[y][x]) / count
    })
}

fn columns_blurred(map: &Grid<f32>, w: usize, h: usize, radius: usize) -> Grid<f32> {
    grid(w, h, |x, y| {
        let window = window(y, radius, h);
        let reciprocal = 1.0 / window.len() as f32;
        window.fold(0.0, |sum, y| sum + map[y][x]) * reciprocal
    })
}

fn offsets(k: i64) -> Vec<(i64, i64)> {
    let all = (-k..=k).flat_map(|dy| (-k..=k).map(move |dx| (dx, dy)));
    all.filter(|(dx, dy)| dx * dx + dy * dy <= (k * k).max(2))
        .collect()
}

#[test]
fn disk_sizes() {
    let sizes: Vec<usize> = (1..=7).map(|k| offsets(k).len()).collect();
    assert_eq!(sizes, [9, 13, 29, 49, 81, 113, 149]);
}

/// Mean and three inverse norms; all sums but the first norm are whole numbers.
fn saddle_numbers(k: i64) -> (f32, [f32; 3]) {
    let disk = offsets(k);
    let squares: i64 = disk.iter().map(|(x, y)| x * x + y * y).sum();
    let mean = squares as f32 / disk.len() as f32;
    let mut first = 0.0f32;
    for (x, y) in &disk {
        let u = (x * x + y * y) as f32 - mean;
        first += u * u;
    }
    let second: i64 = disk.iter().map(|(x, y)| (x * x - y * y).pow(2)).sum();
    let third: i64 = disk.iter().map(|(x, y)| x * x * y * y).sum();
    (mean, [1.0 / first, 1.0 / second as f32, 1.0 / third as f32])
}

fn saddle(image: &Grid<i64>, x: usize, y: usize, k: i64) -> bool {
    let (mean, norms) = saddle_numbers(k);
    let (mut su, mut sv, mut sxy) = (0.0f32, 0i64, 0i64);
    for (dx, dy) in offsets(k) {
        let pixel = image[(y as i64 + dy) as usize][(x as i64 + dx) as usize];
        su += ((dx * dx + dy * dy) as f32 - mean) * pixel as f32;
        sv += (dx * dx - dy * dy) * pixel;
        sxy += dx * dy * pixel;
    }
    let p = su * norms[0];
    let q = sv as f32 * norms[1];
    let b = sxy as f32 * norms[2];
    let spread = (16.0 * q * q + 4.0 * b * b).sqrt();
    let trace = 4.0 * p;
    spread * (k * k) as f32 >= 1.0 && trace.abs() * (1.0 + 0.2) <= spread * (1.0 - 0.2)
}

fn fit(below: f32, centre: f32, above: f32, gaussian: bool) -> f32 {
    let positive = below > 0.0 && centre > 0.0 && above > 0.0;
    let [a, b, c] = match gaussian && positive {
        true => [below.ln(), centre.ln(), above.ln()],
        false => [below, centre, above],
    };
    let denominator = a - 2.0 * b + c;
    if denominator > -1e-12 {
        return 0.0;
    }
    let offset = 0.5 * (a - c) / denominator;
    offset.clamp(-0.5, 0.5)
}

fn kept(frame: &Frame, image: &Grid<i64>, map: &Grid<f32>, floor: f32, x: usize, y: usize) -> bool {
    let s = frame.suppression as usize;
    let centre = map[y][x];
    let around = || {
        map[y - s..=y + s]
            .iter()
            .flat_map(|row| &row[x - s..=x + s])
    };
    // The centre is positive once it is above the floor, so it is one of those counted.
    centre > floor
        && around().all(|value| *value <= centre)
        && around().filter(|value| **value > 0.0).count() > frame.least as usize
        && saddle(image, x, y, frame.radius() as i64)
}

fn corners(frame: &Frame, image: &Grid<i64>, map: &Grid<f32>) -> Vec<[f32; 3]> {
    let (w, h) = frame.working();
    let border = frame.border();
    let greatest = map
        .iter()
        .flatten()
        .fold(0.0f32, |most, value| most.max(*value));
    let floor = frame.fraction() * greatest;
    let scale = if frame.factor() == 1 { 1.0 } else { 0.5 };
    let mut list = Vec::new();
    for y in border..h - border {
        for x in border..w - border {
            if kept(frame, image, map, floor, x, y) {
                let along = fit(map[y][x - 1], map[y][x], map[y][x + 1], frame.mode == 1);
                let down = fit(map[y - 1][x], map[y][x], map[y + 1][x], frame.mode == 1);
                let place = |at: usize, offset: f32| (at as f32 + offset) * scale;
                list.push([place(x, along), place(y, down), map[y][x]]);
            }
        }
    }
    list
}

/// What document 01 says of a frame: working image and map, and all that goes with them.
struct Ruled {
    image: Grid<i64>,
    map: Grid<f32>,
    mapped: Mapped,
}

fn by_the_document(frame: &Frame) -> Ruled {
    let (w, h) = frame.working();
    let image = upsampled(frame);
    let mut map = response(&image, w, h, frame.radius());
    let mut scratch = None;
    if frame.blur != 0 && w * h != 0 {
        let rows = rows_blurred(&map, w, h, frame.blur as usize);
        map = columns_blurred(&rows, w, h, frame.blur as usize);
        scratch = Some(rows.concat());
    }
    let mapped = Mapped {
        w,
        h,
        working: image.iter().flatten().map(|pixel| *pixel as u8).collect(),
        row: back(&image, w, h, 1, 0),
        col: back(&image, w, h, 0, 1),
        diag_pos: back(&image, w, h, 1, 1),
        diag_neg: back(&image, w, h, -1, 1),
        response: map.concat(),
        scratch,
    };
    Ruled { image, map, mapped }
}

fn bits(numbers: &[f32]) -> Vec<u32> {
    numbers.iter().map(|number| number.to_bits()).collect()
}

/// The floats' bits, for negative zero equals zero.
fn map_bits(map: &Mapped) -> [Vec<u32>; 2] {
    let scratch = map.scratch.clone().unwrap_or_default();
    [bits(&map.response), bits(&scratch)]
}

fn same_maps(original: &Mapped, ours: &Mapped) -> bool {
    original == ours && map_bits(original) == map_bits(ours)
}

/// Whether the original's map, and its list if the frame is large enough for one, are as the rules have them.
fn agrees(frame: &Frame, is_small: bool) -> bool {
    let ruled = by_the_document(frame);
    if is_small {
        return same_maps(&mapped(frame), &ruled.mapped);
    }
    let original = run(frame);
    let (theirs, ours) = (
        original.corners.concat(),
        corners(frame, &ruled.image, &ruled.map).concat(),
    );
    let response = &original.map.response;
    let mut positive = response.iter().filter(|value| **value > 0.0);
    assert!(positive.all(|value| (0.015625..16_777_216.0).contains(value)));
    assert!(theirs.iter().all(|number| number.is_finite()));
    same_maps(&original.map, &ruled.mapped) && bits(&theirs) == bits(&ours)
}

fn compare(seed: u64, count: u64, sizes: Sizes) {
    let mut small = 0;
    for index in 0..count {
        let frame = made(seed, index, sizes).frame;
        let is_small = match accepted(&frame.bytes(), Room::FREE) {
            Ok(_) => false,
            Err(TOO_SMALL) => true,
            Err(_) => continue,
        };
        small += u64::from(is_small);
        let agrees = agrees(&frame, is_small);
        assert!(agrees, "seed {seed}, index {index}, {sizes:?}");
    }
    assert!(small > 0, "none of {count} is too small for a list");
}

#[test]
fn frames_for_the_program() {
    compare(11, frames(), Sizes::PROGRAM);
}

#[test]
fn larger_frames() {
    compare(12, frames() / 100, Sizes::up_to(150));
}
