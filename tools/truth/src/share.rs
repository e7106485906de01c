//! How far a blurred value lies from the sum it stands for, as a part of what is allowed: an exact fraction.

use std::cmp::Ordering;
use std::fmt;

/// What is allowed: |v·N − E| · 2^20 ≤ E.
const ALLOWED: u32 = 20;

/// Values of a map are below 2^30 and, but for 0, above 2^-6; with these ends no shift below loses a bit.
const LEAST: i32 = -40;
const MOST: i32 = 40;

/// |v·N − E| · 2^20 / E, from 0 to 1.
#[derive(Clone, Copy, Debug)]
pub struct Share {
    over: u128,
    under: u128,
}

/// The value as a whole number and how often that is to be halved; nothing for what stands for no sum.
fn halved(value: f32) -> Option<(u128, u32)> {
    const BIAS: i32 = 127;
    const DIGITS: i32 = 23;
    if value == 0.0 {
        return Some((0, 0));
    }
    let bits = value.to_bits();
    // With the sign, so that a negative value is past the greatest.
    let exponent = (bits >> DIGITS) as i32 - BIAS;
    if !(LEAST..MOST).contains(&exponent) {
        return None;
    }
    let digits = u128::from(bits & ((1 << DIGITS) - 1) | 1 << DIGITS);
    Some(if exponent < DIGITS {
        (digits, (DIGITS - exponent) as u32)
    } else {
        (digits << (exponent - DIGITS), 0)
    })
}

impl Share {
    pub const ZERO: Share = Share { over: 0, under: 1 };

    /// Of a value v that stands for the sum E of N whole numbers; nothing if it lies further off than is allowed.
    pub fn of(value: f32, count: usize, sum: u64) -> Option<Share> {
        let (number, halvings) = halved(value)?;
        let under = u128::from(sum) << halvings;
        let gap = (number * count as u128).abs_diff(under);
        match (gap, under) {
            (0, 0) => Some(Share::ZERO),
            _ if gap > under >> ALLOWED => None,
            _ => Some(Share {
                over: gap << ALLOWED,
                under,
            }),
        }
    }

    pub fn is_zero(&self) -> bool {
        self.over == 0
    }

    /// Numerator and denominator, in lowest terms.
    pub fn fraction(&self) -> (u128, u128) {
        let (mut a, mut b) = (self.over, self.under);
        while b != 0 {
            (a, b) = (b, a % b);
        }
        (self.over / a, self.under / a)
    }
}

/// For printing alone.
impl From<Share> for f64 {
    fn from(share: Share) -> f64 {
        share.over as f64 / share.under as f64
    }
}

/// By cross products: both parts of a share stay below 2^48.
impl Ord for Share {
    fn cmp(&self, other: &Share) -> Ordering {
        (self.over * other.under).cmp(&(other.over * self.under))
    }
}

impl PartialOrd for Share {
    fn partial_cmp(&self, other: &Share) -> Option<Ordering> {
        Some(self.cmp(other))
    }
}

impl PartialEq for Share {
    fn eq(&self, other: &Share) -> bool {
        self.cmp(other) == Ordering::Equal
    }
}

impl Eq for Share {}

impl fmt::Display for Share {
    fn fmt(&self, out: &mut fmt::Formatter<'_>) -> fmt::Result {
        write!(out, "{:.4}", f64::from(*self))
    }
}
