//! Rendered frames of a panel that is clean, dirty, blurred, turned away or out of the picture: every corner's place is known. Only sums,
//! products and square roots: the same bytes everywhere.
#![allow(dead_code)]

use judge::random::Random;

pub const WIDTH: usize = 320;
pub const HEIGHT: usize = 240;
/// Squares of the panel along and down; its corners are where four meet.
const SQUARES: (i32, i32) = (9, 7);
/// Grey of the panel's squares, and of the ground behind it.
const DARK: f64 = 40.0;
const BRIGHT: f64 = 200.0;
const GROUND: f64 = 110.0;
/// Samples along a pixel's side.
const FINE: usize = 4;

/// A count of a scene as the document writes it: 285,977.
pub fn thousands(number: usize) -> String {
    match number {
        0..1_000 => number.to_string(),
        _ => format!("{},{:03}", number / 1_000, number % 1_000),
    }
}

/// How a panel stands before the camera.
#[derive(Clone, Copy)]
pub struct Pose {
    /// Where its middle is seen.
    middle: (f64, f64),
    /// Pixels along a square in the middle.
    square: f64,
    /// How it is turned in the picture, as a direction.
    turn: (f64, f64),
    /// How far it is turned away about its upright axis, as the cosine.
    away: f64,
    /// How much smaller each square further on is seen.
    depth: f64,
}

impl Pose {
    /// Before the camera, a little turned; variants are moved and turned a little more.
    pub fn straight(variant: u32) -> Pose {
        let more = f64::from(variant);
        Pose {
            middle: (161.3 + 0.37 * more, 118.6 + 0.53 * more),
            square: 24.0,
            turn: (12.0, 1.0 + more),
            away: 1.0,
            depth: 0.0,
        }
    }

    fn moved(self, x: f64, y: f64) -> Pose {
        let middle = (self.middle.0 + x, self.middle.1 + y);
        Pose { middle, ..self }
    }

    fn sized(self, square: f64) -> Pose {
        Pose { square, ..self }
    }

    fn turned_away(self, away: f64, depth: f64) -> Pose {
        Pose {
            away,
            depth,
            ..self
        }
    }

    fn direction(&self) -> (f64, f64) {
        let (cos, sin) = self.turn;
        let length = (cos * cos + sin * sin).sqrt();
        (cos / length, sin / length)
    }

    /// Where a place of the panel, in squares from its middle, is seen.
    fn seen(&self, (u, v): (f64, f64)) -> (f64, f64) {
        let (cos, sin) = self.direction();
        let far = 1.0 + self.depth * u;
        let (x, y) = (self.away * u / far, v / far);
        (
            self.middle.0 + self.square * (cos * x - sin * y),
            self.middle.1 + self.square * (sin * x + cos * y),
        )
    }

    /// Which place of the panel is seen there.
    fn panel(&self, (x, y): (f64, f64)) -> (f64, f64) {
        let (cos, sin) = self.direction();
        let (x, y) = (x - self.middle.0, y - self.middle.1);
        let x_y = (cos * x + sin * y, cos * y - sin * x);
        let (x, y) = (x_y.0 / self.square, x_y.1 / self.square);
        let u = x / (self.away - self.depth * x);
        (u, y * (1.0 + self.depth * u))
    }

    fn shade(&self, place: (f64, f64)) -> f64 {
        let (u, v) = self.panel(place);
        let half = |squares: i32| f64::from(squares) / 2.0;
        let (u, v) = (u + half(SQUARES.0), v + half(SQUARES.1));
        let on = |at: f64, squares: i32| (0.0..f64::from(squares)).contains(&at);
        if !on(u, SQUARES.0) || !on(v, SQUARES.1) {
            return GROUND;
        }
        match (u.floor() + v.floor()) as i64 % 2 {
            0 => DARK,
            _ => BRIGHT,
        }
    }

    /// The corners that are seen so far inside the picture that they are looked for.
    pub fn corners(&self, border: f64) -> Vec<(f64, f64)> {
        let (across, down) = SQUARES;
        let place = |i: i32, squares: i32| f64::from(i) - f64::from(squares) / 2.0;
        let all = (1..down).flat_map(|j| (1..across).map(move |i| (i, j)));
        let seen = all.map(|(i, j)| self.seen((place(i, across), place(j, down))));
        let inside = |at: f64, side: usize| (border..side as f64 - border).contains(&at);
        seen.filter(|(x, y)| inside(*x, WIDTH) && inside(*y, HEIGHT))
            .collect()
    }
}

/// Boxes and beams, and no panel.
fn dock((x, y): (f64, f64)) -> f64 {
    match () {
        _ if (40.0..110.0).contains(&x) && (60.0..200.0).contains(&y) => 170.0,
        _ if (150.0..290.0).contains(&x) && (120.0..210.0).contains(&(y + 0.2 * x)) => 60.0,
        _ if (0.0..9.0).contains(&(y - 20.0 - 0.1 * x)) => 30.0,
        _ if (200.0..206.0).contains(&x) => 220.0,
        _ => GROUND,
    }
}

/// A frame by its name, and how its panel stands, where it shows one.
pub struct Scene {
    pub name: &'static str,
    pub pose: Option<Pose>,
    /// Grey values before they are rounded.
    greys: Vec<f64>,
    /// A camera's noise: so many grey steps to either side.
    noise: i32,
    seed: u64,
}

impl Scene {
    fn of(name: &'static str, seed: u64, shade: impl Fn((f64, f64)) -> f64) -> Scene {
        let sample = |at: usize| (at as f64 + 0.5) / FINE as f64 - 0.5;
        let pixel = |at: usize| {
            let (x, y) = ((at % WIDTH) as f64, (at / WIDTH) as f64);
            let places = (0..FINE * FINE).map(|k| (x + sample(k % FINE), y + sample(k / FINE)));
            places.map(&shade).sum::<f64>() / (FINE * FINE) as f64
        };
        Scene {
            name,
            pose: None,
            greys: (0..WIDTH * HEIGHT).map(pixel).collect(),
            noise: 2,
            seed,
        }
    }

    fn panel(name: &'static str, seed: u64, pose: Pose) -> Scene {
        Scene {
            pose: Some(pose),
            ..Scene::of(name, seed, |place| pose.shade(place))
        }
    }

    fn named(self, name: &'static str) -> Scene {
        Scene { name, ..self }
    }

    /// Means of three by three so often, up to a column.
    fn blurred(mut self, times: usize, until: usize) -> Scene {
        for _ in 0..times {
            let old = self.greys.clone();
            for at in (0..WIDTH * HEIGHT).filter(|at| at % WIDTH < until) {
                self.greys[at] = mean(&old, at % WIDTH, at / WIDTH);
            }
        }
        self
    }

    /// So many parts of a hundred of the contrast left, about the grey of the haze.
    fn hazed(mut self, left: f64) -> Scene {
        let haze = |grey: &mut f64| *grey = 150.0 + (*grey - 150.0) * left / 100.0;
        self.greys.iter_mut().for_each(haze);
        self
    }

    fn disk(&mut self, (cx, cy): (f64, f64), radius: f64, shade: f64) {
        for (at, grey) in self.greys.iter_mut().enumerate() {
            let (x, y) = ((at % WIDTH) as f64 - cx, (at / WIDTH) as f64 - cy);
            if x * x + y * y <= radius * radius {
                *grey = shade;
            }
        }
    }

    /// Dark specks, one to three pixels across.
    fn specked(mut self, specks: usize) -> Scene {
        let random = &mut Random::new(7 + self.seed, specks as u64);
        for _ in 0..specks {
            let x = random.between(0.0, WIDTH as f64);
            let y = random.between(0.0, HEIGHT as f64);
            let radius = random.between(0.6, 1.8);
            self.disk((x, y), radius, 20.0);
        }
        self
    }

    /// Light that the camera cannot show.
    fn glaring(mut self, radius: f64) -> Scene {
        self.disk((190.0, 100.0), radius, 255.0);
        self
    }

    fn silent(self) -> Scene {
        Scene { noise: 0, ..self }
    }

    /// Rounded, with the noise.
    pub fn pixels(&self) -> Vec<u8> {
        let random = &mut Random::new(11 + self.seed, 0);
        let shaken = |grey: &f64| {
            let by = random.below(2 * self.noise as usize + 1) as i32 - self.noise;
            ((grey + 0.5).floor() as i32 + by).clamp(0, 255) as u8
        };
        self.greys.iter().map(shaken).collect()
    }
}

/// The mean of three by three, cut at the edges.
fn mean(greys: &[f64], x: usize, y: usize) -> f64 {
    let (mut sum, mut count) = (0.0, 0.0);
    for yy in y.saturating_sub(1)..(y + 2).min(HEIGHT) {
        for xx in x.saturating_sub(1)..(x + 2).min(WIDTH) {
            sum += greys[yy * WIDTH + xx];
            count += 1.0;
        }
    }
    sum / count
}

/// All scenes; a variant has other noise, specks and places.
pub fn scenes(variant: u32) -> Vec<Scene> {
    let (pose, seed) = (Pose::straight(variant), variant.into());
    let sharp = || Scene::panel("sharp", seed, pose);
    let posed = |name, pose| Scene::panel(name, seed, pose);
    let beam = |(x, y): (f64, f64)| match (0.0..30.0).contains(&(x - 130.0 - 0.3 * y)) {
        true => 30.0,
        false => pose.shade((x, y)),
    };
    let beam = Scene {
        pose: Some(pose),
        ..Scene::of("a beam before it", seed, beam)
    };
    vec![
        sharp(),
        sharp().blurred(4, WIDTH).named("blurred a little"),
        sharp().blurred(16, WIDTH).named("blurred"),
        sharp().blurred(64, WIDTH).named("blurred much"),
        sharp()
            .blurred(64, WIDTH / 2)
            .named("blurred much, its left half"),
        sharp().hazed(25.0).named("haze, contrast 40"),
        sharp().hazed(5.0).named("haze, contrast 8"),
        sharp().hazed(2.0).named("haze, contrast 3"),
        sharp().hazed(1.0).named("haze, contrast 2"),
        sharp().specked(60).named("60 specks"),
        sharp().specked(300).named("300 specks"),
        sharp().specked(1_000).named("1,000 specks"),
        sharp().glaring(50.0).named("glare on a tenth"),
        sharp().glaring(90.0).named("glare on a third"),
        beam,
        posed("turned away, 60°", pose.turned_away(0.5, 0.03)),
        posed("turned away, 75°", pose.turned_away(0.26, 0.03)),
        posed("turned away, 82°", pose.turned_away(0.14, 0.02)),
        posed("turned away, 85°", pose.turned_away(0.087, 0.015)),
        posed("a quarter outside", pose.moved(110.0, 0.0)),
        posed("two thirds outside", pose.moved(150.0, 100.0)),
        posed("far away, squares of 6", pose.sized(6.0)),
        posed("far away, squares of 3", pose.sized(3.0)),
        posed("far away, squares of 2", pose.sized(2.0)),
        Scene::of("no panel, boxes and beams", seed, dock),
        Scene::of("no panel, plain grey", seed, |_| GROUND),
        Scene::of("black", seed, |_| 0.0),
        Scene::of("black, no noise", seed, |_| 0.0).silent(),
    ]
}

/// A panel with squares of so many pixels, blurred by so many means, turned in the picture by 0° to 45° in ten steps.
pub fn turned(square: f64, means: usize) -> Vec<Scene> {
    let scene = |step: u32| {
        let turn = (9.0, f64::from(step));
        let pose = Pose {
            turn,
            ..Pose::straight(step).sized(square)
        };
        Scene::panel("turned", step.into(), pose).blurred(means, WIDTH)
    };
    (0..10).map(scene).collect()
}
