//! Shares by hand.

use truth::{Share, Window};

/// Document 01's frame, blurred by 3, has this in the middle of its map.
const DOCUMENT: f32 = 9_195_103.0 / 1_024.0;

/// The value so many f32 further up, or down.
fn moved(value: f32, steps: i32) -> f32 {
    f32::from_bits(value.to_bits().wrapping_add_signed(steps))
}

/// 9195103 · 49 = 440000 · 1024 + 47.
#[test]
fn the_documents_value() {
    let share = Share::of(DOCUMENT, 49, 440_000).unwrap();
    let (over, under) = (47 << 20, 1_024 * 440_000);
    assert_eq!(share.fraction(), (over / 65_536, under / 65_536));
    assert_eq!(share.fraction(), (752, 6_875));
    assert_eq!(share.to_string(), "0.1094");
}

/// A step is 49 of 1024 parts, and 429 of them are allowed: 47 + 7 · 49 = 390, with one more 439; 9 · 49 − 47 = 394, with one more 443.
#[test]
fn steps_past_the_bound() {
    let share = |steps| Share::of(moved(DOCUMENT, steps), 49, 440_000);
    let over = |steps| share(steps).map(|share| share.fraction());
    assert_eq!(over(7), Some(lowest((390 << 10, 440_000))));
    assert_eq!(over(-9), Some(lowest((394 << 10, 440_000))));
    assert_eq!((over(8), over(-10)), (None, None));
    // Shares are ordered as fractions are, whatever their denominators.
    assert!(share(0) < share(-2) && share(-2) < share(7) && share(7) < share(-9));
    assert!(share(-1) < share(0) && Some(Share::ZERO) < share(-1));
}

fn lowest((over, under): (u128, u128)) -> (u128, u128) {
    let divides = |d: &u128| over % d == 0 && under % d == 0;
    let most = (1..=over).filter(divides).max().unwrap();
    (over / most, under / most)
}

#[test]
fn nothing_and_all() {
    assert_eq!(Share::of(0.0, 49, 0), Some(Share::ZERO));
    assert_eq!(Share::of(-0.0, 1, 0), Some(Share::ZERO));
    assert_eq!(Share::of(3.0, 7, 21), Some(Share::ZERO));
    // A value where there is nothing, and nothing where there is a sum.
    for value in [
        f32::from_bits(1),
        2f32.powi(-41),
        1.0 / 49.0,
        1.0,
        2f32.powi(41),
    ] {
        assert_eq!(Share::of(value, 49, 0), None, "{value}");
    }
    assert_eq!(Share::of(0.0, 49, 1), None);
    // All of what is allowed, and an eighth more.
    let whole = Share::of(1_048_577.0, 1, 1 << 20).unwrap();
    assert_eq!(whole.fraction(), (1, 1));
    assert_eq!(Share::of(1_048_577.0 + 0.125, 1, 1 << 20), None);
    assert_eq!(Share::of(1_048_575.0, 1, 1 << 20), Some(whole));
    // No sum is negative, endless or no number.
    for value in [-3.0, f32::INFINITY, f32::NEG_INFINITY, f32::NAN, -f32::NAN] {
        assert_eq!(Share::of(value, 7, 21), None, "{value}");
    }
}

#[test]
fn windows() {
    let window = |x, y, blur| {
        let window = Window::about((x, y), (9, 5), blur);
        let Window {
            left,
            top,
            columns,
            rows,
        } = window;
        (
            (left, top, columns, rows),
            window.count(),
            window.roundings(),
        )
    };
    assert_eq!(window(4, 2, 0), ((4, 2, 1, 1), 1, 3));
    assert_eq!(window(4, 2, 2), ((2, 0, 5, 5), 25, 11));
    assert_eq!(window(4, 2, 3), ((1, 0, 7, 5), 35, 13));
    assert_eq!(window(0, 0, 3), ((0, 0, 4, 4), 16, 9));
    assert_eq!(window(8, 4, 3), ((5, 1, 4, 4), 16, 9));
    assert_eq!(window(7, 1, 1), ((6, 0, 3, 3), 9, 7));
}
