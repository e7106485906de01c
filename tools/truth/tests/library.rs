//! The library's maps held to the whole numbers, changed maps, and the search's model held to the library.

use judge::random::Random;
use judge::{document_frame, make};
use steyrbunk::frame::Frame;
use steyrbunk::{Finder, Image, Settings};
use truth::{hold, look, mean, start, Among, Canvas, Share, Summary, Tally, Whole, Window};

const BLURS: [u32; 4] = [0, 1, 2, 3];

/// The settings with another blur.
fn blurred(settings: &Settings, blur: u32) -> Settings {
    Settings {
        response_blur_radius: blur,
        ..*settings
    }
}

/// The map of document 01's frame with a blur, and its whole numbers.
fn document(blur: u32) -> (Vec<f32>, Whole) {
    let file = document_frame().bytes();
    let frame = Frame::parse(&file).unwrap();
    let mut finder = Finder::new();
    let map = finder
        .response(frame.image, &blurred(&frame.settings, blur))
        .unwrap();
    let whole = Whole::of(map.working, map.width, map.height, 1);
    (map.response.to_vec(), whole)
}

fn step(value: &mut f32, steps: i32) {
    *value = f32::from_bits(value.to_bits().wrapping_add_signed(steps));
}

#[test]
fn the_documents_frame() {
    let (map, whole) = document(3);
    assert_eq!(map[24], 9_195_103.0 / 1_024.0);
    let tally = hold(&map, &whole, 3);
    assert_eq!((tally.pixels, tally.standing, tally.broken), (49, 49, 0));
    let middle = Share::of(map[24], 49, 440_000);
    let shares = map.iter().enumerate().map(|(at, value)| {
        let window = Window::about((at % 7, at / 7), (7, 7), 3);
        f64::from(Share::of(*value, window.count(), whole.sum(&window)).unwrap())
    });
    assert_eq!(tally.shares, shares.sum::<f64>());
    assert!(tally.shares > f64::from(middle.unwrap()));
    assert_eq!(tally.by_roundings[15], middle);
    assert_eq!(
        tally.by_roundings.iter().max().unwrap(),
        &tally.worst.map(|(share, _)| share)
    );
    // 400² in the middle, 200² at its four sides, 100² at its four corners and at eight places beyond them.
    let (map, whole) = document(0);
    assert_eq!((map[24], whole.at(3, 3)), (160_000.0, 160_000));
    let tally = hold(&map, &whole, 0);
    assert_eq!((tally.pixels, tally.standing, tally.broken), (49, 17, 0));
}

/// One entry of a map, moved by steps of an f32.
#[test]
fn a_moved_value_is_told() {
    let (map, whole) = document(3);
    let moved = |steps| {
        let mut map = map.clone();
        step(&mut map[24], steps);
        hold(&map, &whole, 3)
    };
    for steps in [7, -9] {
        assert_eq!(moved(steps).broken, 0);
    }
    for steps in [8, -10] {
        let tally = moved(steps);
        let pixel = tally.first_broken.unwrap();
        assert_eq!(
            (tally.broken, tally.pixels, pixel.x, pixel.y),
            (1, 49, 3, 3)
        );
        assert_eq!((pixel.count, pixel.sum), (49, 440_000));
        let bits = pixel.value.to_bits();
        let told =
            format!("1 PAST THE BOUND, the first at pixel (3, 3), v {bits:#010x}, N 49, E 440000");
        assert_eq!(
            (moved(7).complaint(), tally.complaint()),
            (None, Some(told))
        );
        let mut summary = Summary::default();
        summary.add("moved", &[(3, moved(7))]);
        assert!(summary.holds());
        summary.add("moved", &[(3, tally)]);
        assert!(!summary.holds());
        assert!(summary
            .to_string()
            .contains("98 pixels, 98 of them with E above 0, 1 past the bound"));
    }
}

/// Without a blur a single step is told, which the bound would allow; and a value where there is none.
#[test]
fn without_a_blur_all_is_exact() {
    let (map, whole) = document(0);
    for (at, sum) in [(24, 160_000), (0, 0)] {
        let mut map = map.clone();
        step(&mut map[at], 1);
        assert_eq!(Share::of(map[at], 1, sum).is_some(), sum > 0);
        let tally = hold(&map, &whole, 0);
        assert_eq!((tally.broken, tally.first_broken.unwrap().sum), (1, sum));
    }
}

/// A window that is cut has fewer pixels than 7 by 7: with the wrong number no value is near.
#[test]
fn an_uncut_count_is_told() {
    let (map, whole) = document(3);
    let mut told = 0;
    for (at, value) in map.iter().enumerate() {
        let window = Window::about((at % 7, at / 7), (7, 7), 3);
        let sum = whole.sum(&window);
        assert!(Share::of(*value, window.count(), sum).is_some());
        let uncut = Share::of(*value, 49, sum);
        assert_eq!(uncut.is_none(), window.count() < 49, "{at}");
        told += usize::from(uncut.is_none());
    }
    assert_eq!(told, 48);
}

/// Whole numbers of longer rays are told at every blur.
#[test]
fn another_ray_radius_is_told() {
    let file = document_frame().bytes();
    let frame = Frame::parse(&file).unwrap();
    let mut finder = Finder::new();
    for blur in BLURS {
        let map = finder
            .response(frame.image, &blurred(&frame.settings, blur))
            .unwrap();
        let other = Whole::of(map.working, 7, 7, 2);
        assert!(
            hold(map.response, &other, blur as usize).broken > 0,
            "{blur}"
        );
    }
}

/// Made frames of every kind, at all four radii: nothing is past the bound, and the model has the library's map to the bit.
#[test]
fn made_frames_and_the_model() {
    let (mut finder, mut rays, mut pixels) = (Finder::new(), [0; 8], 0u64);
    for index in 0..1_500 {
        let file = make(5, index);
        let Ok(frame) = Frame::parse(&file) else {
            continue;
        };
        for blur in BLURS {
            let settings = blurred(&frame.settings, blur);
            let Ok(map) = finder.response(frame.image, &settings) else {
                continue;
            };
            let ray = settings.ray_radius.max(1) as usize;
            let whole = Whole::of(map.working, map.width, map.height, ray);
            let tally = hold(map.response, &whole, blur as usize);
            assert_eq!(tally.broken, 0, "index {index}, blur {blur}");
            same_as_the_model(map.response, &whole, blur as usize);
            rays[ray] += 1;
            pixels += tally.standing;
        }
    }
    assert!(rays[1..].iter().all(|count| *count > 0), "{rays:?}");
    assert!(pixels > 500_000, "{pixels}");
}

fn same_as_the_model(map: &[f32], whole: &Whole, blur: usize) {
    for (at, value) in map.iter().enumerate() {
        let (x, y) = (at % whole.width, at / whole.width);
        let window = Window::about((x, y), (whole.width, whole.height), blur);
        let response = |column, row| whole.at(window.left + column, window.top + row) as f32;
        let model = mean(window.columns, window.rows, response);
        assert_eq!(model.to_bits(), value.to_bits(), "({x}, {y}), blur {blur}");
    }
}

/// What the library has at the canvas' pixel, as `hold` sees it.
fn at_pixel(finder: &mut Finder, canvas: &Canvas) -> (f32, u64) {
    let shape = canvas.shape();
    let map = finder.response(canvas.image(), &shape.settings()).unwrap();
    let whole = Whole::of(map.working, map.width, map.height, shape.ray);
    let value = map.response[shape.y * shape.width + shape.x];
    (value, whole.sum(&shape.window()))
}

/// The search's canvas, after strokes and after taking them back, against the library; cut windows and all rays among them.
#[test]
fn the_canvas_has_the_librarys_value() {
    let (mut finder, random) = (Finder::new(), &mut Random::new(9, 0));
    let (mut rays, mut cut, mut standing) = ([0; 8], 0, 0);
    for number in 0..1_200 {
        let (shape, pixels) = start(random, Among::All, number % 4);
        let canvas = &mut Canvas::new(shape, &pixels);
        for stroke in 0..30 {
            let before = canvas.pixels().to_vec();
            match random.below(3) {
                0 => canvas.stroke_column(random),
                1 => canvas.stroke_stripe(random),
                _ => canvas.stroke_pixel(random),
            }
            if stroke % 3 == 0 {
                canvas.undo();
                assert_eq!(canvas.pixels(), before);
            }
        }
        let (value, sum) = canvas.value();
        let (library, whole) = at_pixel(&mut finder, canvas);
        assert_eq!((value.to_bits(), sum), (library.to_bits(), whole));
        let share = Share::of(value, shape.window().count(), sum).unwrap();
        assert!((f64::from(share) - canvas.share()).abs() < 1e-12);
        rays[shape.ray] += 1;
        cut += usize::from(shape.window().roundings() < 4 * shape.blur + 3);
        standing += usize::from(sum > 0);
    }
    assert!(rays[1..].iter().all(|count| *count > 0), "{rays:?}");
    assert!(cut > 100 && standing > 600, "{cut} {standing}");
}

/// Frames are passed over for the map's own refusals alone; the frame's own blur does not matter.
#[test]
fn refusals() {
    let pixels = [0; 49];
    let image = Image {
        pixels: &pixels,
        width: 7,
        height: 7,
    };
    let mut finder = Finder::new();
    let mut looked = |settings: Settings| look(&mut finder, image, &settings, &BLURS);
    let settings = Settings {
        response_blur_radius: 200,
        nms_radius: 200,
        ..Settings::default()
    };
    let counts = |tally: &Tally| (tally.pixels, tally.standing);
    let tallies = looked(settings).unwrap();
    assert!(tallies.iter().all(|(_, tally)| counts(tally) == (196, 0)));
    assert!(looked(Settings {
        ray_radius: 8,
        ..settings
    })
    .is_err());
}

/// A strength is the map's value at a pixel no further than half a working pixel from its corner's place, so it is within the bound too.
#[test]
fn strengths() {
    let (mut finder, mut blurred, mut inexact) = (Finder::new(), [0; 4], 0);
    for index in 0..1_500 {
        let file = make(6, index);
        let Ok(frame) = Frame::parse(&file) else {
            continue;
        };
        let Ok(found) = finder.find(frame.image, &frame.settings) else {
            continue;
        };
        let (map, factor) = (finder.map(), frame.settings.factor() as f32);
        let blur = frame.settings.response_blur_radius as usize;
        let ray = frame.settings.ray_radius.max(1) as usize;
        let whole = Whole::of(map.working, map.width, map.height, ray);
        for corner in &found.corners {
            // Halfway between two pixels either may be the corner's.
            let near = |place: f32| {
                let place = place * factor;
                (place - 0.5).ceil() as usize..=(place + 0.5).floor() as usize
            };
            let pixels = near(corner.y).flat_map(|y| near(corner.x).map(move |x| (x, y)));
            let mut shares = pixels.filter_map(|(x, y)| {
                let value = map.response[y * map.width + x];
                let window = Window::about((x, y), (map.width, map.height), blur);
                let share = Share::of(value, window.count(), whole.sum(&window))?;
                (value.to_bits() == corner.strength.to_bits()).then_some(share)
            });
            let share = shares.next().unwrap();
            assert!(blur > 0 || share.is_zero(), "index {index}");
            blurred[blur] += 1;
            inexact += usize::from(!share.is_zero());
        }
    }
    assert!(blurred.iter().all(|count| *count > 1_000), "{blurred:?}");
    assert!(inexact > 1_000, "{inexact}");
}
