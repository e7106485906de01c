//! Root and logarithm beside the platform's; `bench --distances` goes over every number.

use steyrbunk::scalar::{ln, sqrt};

#[test]
fn within() {
    for bits in (0..0x7F80_0000u32).step_by(40_009) {
        let x = f32::from_bits(bits);
        assert_eq!(sqrt(x).to_bits(), x.sqrt().to_bits(), "{x:e}");
    }
    for bits in (0x3C80_0000..=0x4B80_0000u32).step_by(10_007) {
        let x = f32::from_bits(bits);
        assert!((ln(x) - x.ln()).abs() < 2e-6, "{x:e}");
    }
}

#[test]
fn outside() {
    let neither = [-0.0, -1.0, f32::INFINITY, f32::NEG_INFINITY, f32::NAN];
    let not_logs = [0.0, 0.015_624_999, 16_777_218.0];
    assert!(neither.iter().all(|x| sqrt(*x).is_nan() && ln(*x).is_nan()));
    assert!(not_logs.iter().all(|x| ln(*x).is_nan()));
}
