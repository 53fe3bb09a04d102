//! Samples, factors and weights, ordinary and special.

use crate::rng::Rng;
use second::Channel;

const SMALLEST: f32 = f32::from_bits(1);
const LARGEST_SUBNORMAL: f32 = f32::from_bits(0x007f_ffff);

/// A value that no channel accepts as a sample.
pub fn not_finite(rng: &mut Rng) -> f32 {
    let bits = rng.pick(&[
        0x7f80_0000,
        0xff80_0000,
        0x7fc0_0000,
        0xffc0_0000,
        0x7f80_0001,
        0xffff_ffff,
    ]);
    f32::from_bits(bits)
}

/// A value that is refused as a factor or weight.
pub fn bad_number(rng: &mut Rng) -> f32 {
    match rng.below(4) {
        0 => rng.pick(&[0.0, -0.0]),
        1 => rng.pick(&[-1.5, -SMALLEST, -f32::MAX, -f32::MIN_POSITIVE]),
        _ => not_finite(rng),
    }
}

/// The value or one of its neighbours.
pub fn near(rng: &mut Rng, value: f32) -> f32 {
    let bits = i64::from(value.to_bits()) + rng.between(-2, 2);
    let moved = f32::from_bits(bits.max(0) as u32);
    if moved.is_finite() {
        moved
    } else {
        value
    }
}

/// Sizes where the whole number changes: halves and the ceiling.
pub fn edge(rng: &mut Rng, ceiling: i64) -> f32 {
    let ceiling = ceiling.clamp(1, 2047);
    match rng.below(4) {
        0 => ceiling as f32,
        1 => ceiling as f32 - 0.5,
        _ => rng.between(0, ceiling) as f32 + 0.5,
    }
}

/// A size of any kind, finite and not below zero.
pub fn any_size(rng: &mut Rng) -> f32 {
    match rng.below(4) {
        0 => f32::from_bits((rng.next() % 0x7f80_0000) as u32),
        1 => f32::from_bits((rng.next() % 0x0080_0000) as u32),
        2 => rng.pick(&[
            f32::MAX,
            f32::MIN_POSITIVE,
            SMALLEST,
            LARGEST_SUBNORMAL,
            1.0,
        ]),
        _ => rng.between(0, 100_000) as f32 / rng.pick(&[1.0, 2.0, 64.0, 100.0, 10_000.0]),
    }
}

/// A factor or weight that is accepted.
pub fn good_number(rng: &mut Rng, ceiling: i64) -> f32 {
    let number = match rng.below(6) {
        0 | 1 => rng.pick(&[1.5, 0.25, 0.5, 1.0, 2.0, 3.0, 0.1, 7.3]),
        2 | 3 => {
            let value = edge(rng, ceiling);
            near(rng, value)
        }
        _ => any_size(rng),
    };
    if number > 0.0 {
        number
    } else {
        1.0
    }
}

pub fn draw_channel(rng: &mut Rng, ceiling: i64) -> Channel {
    match rng.below(5) {
        0 => Channel::Erasing,
        1 => Channel::Flipping(good_number(rng, ceiling)),
        _ => Channel::Gaussian(good_number(rng, ceiling)),
    }
}

/// A finite sample whose product with the factor is the value, if there is one,
/// else close to it.
pub fn sample_for(value: f32, factor: f32) -> f32 {
    let quotient = (value / factor).clamp(-f32::MAX, f32::MAX);
    let bits = quotient.to_bits();
    // Where the quotient was rounded, one of its neighbours may be right.
    let neighbours = [bits, bits.wrapping_add(1), bits.wrapping_sub(1)].map(f32::from_bits);
    let right = |sample: &f32| sample.is_finite() && sample * factor == value;
    neighbours.into_iter().find(right).unwrap_or(quotient)
}

/// A finite sample; many lead to values at halves or at the ceiling.
pub fn finite_sample(rng: &mut Rng, ceiling: i64, factor: f32) -> f32 {
    let size = match rng.below(8) {
        0 => 0.0,
        1..=3 => {
            let sample = sample_for(edge(rng, ceiling), factor);
            near(rng, sample)
        }
        4 | 5 => rng.between(0, 4000) as f32 / 1000.0,
        _ => any_size(rng),
    };
    if rng.chance(50) {
        -size
    } else {
        size
    }
}

pub fn draw_samples(rng: &mut Rng, n: usize, ceiling: i64, channel: Channel) -> Vec<f32> {
    let factor = match channel {
        Channel::Gaussian(factor) if factor > 0.0 && factor.is_finite() => factor,
        _ => 1.0,
    };
    (0..n)
        .map(|_| finite_sample(rng, ceiling, factor))
        .collect()
}
