//! Pairs of samples for two antennas, and the factors of their receivers.

use crate::floats::{any_size, edge, finite_sample, good_number, near, sample_for};
use crate::rng::Rng;
use second::front::{cut, LARGEST_PRODUCT};
use second::Receiver;

/// Half of the receivers have powers of two for factors: products are exact
/// then, so that a sum is what it was drawn to be.
pub fn draw_receiver(rng: &mut Rng, ceiling: i64) -> Receiver {
    let exact = rng.chance(50);
    let factor = |rng: &mut Rng| {
        if exact {
            power_of_two(rng)
        } else {
            good_number(rng, ceiling)
        }
    };
    Receiver {
        first: factor(rng),
        second: factor(rng),
    }
}

/// Mostly near 1; any power that the format has, subnormals too.
fn power_of_two(rng: &mut Rng) -> f32 {
    let exponent = match rng.below(10) {
        0 | 1 => 0,
        2..=6 => rng.between(-8, 8),
        // Such as take a sample beyond the format.
        7 | 8 => rng.between(1, 127),
        _ => rng.between(-149, 127),
    };
    2_f64.powi(exponent as i32) as f32
}

/// n samples of each branch.
pub fn draw_pairs(rng: &mut Rng, n: usize, ceiling: i64, receiver: Receiver) -> Vec<Vec<f32>> {
    let pairs = (0..n).map(|_| draw_pair(rng, ceiling, receiver));
    let (first, second) = pairs.unzip();
    vec![first, second]
}

fn draw_pair(rng: &mut Rng, ceiling: i64, receiver: Receiver) -> (f32, f32) {
    if rng.chance(15) {
        let first = finite_sample(rng, ceiling, receiver.first);
        return (first, finite_sample(rng, ceiling, receiver.second));
    }
    let one = draw_size(rng, ceiling);
    let other = draw_other(rng, ceiling, one);
    let sign = rng.pick(&[1.0, -1.0]);
    let (one, other) = (sign * one, sign * other);
    let (first, second) = rng.pick(&[(one, other), (other, one)]);
    (
        sample_for(first, receiver.first),
        sample_for(second, receiver.second),
    )
}

/// The size of a product.
fn draw_size(rng: &mut Rng, ceiling: i64) -> f32 {
    match rng.below(10) {
        0 | 1 => near(rng, LARGEST_PRODUCT),
        2 => rng.pick(&[4097.0, 5000.0, 10_000.0, 1e20, f32::MAX]),
        3 => f32::INFINITY,
        // From the ceiling to where it is cut.
        4 | 5 => rng.between(2 * ceiling, 8192) as f32 / 2.0,
        6..=8 => {
            let size = edge(rng, ceiling);
            near(rng, size)
        }
        _ if rng.chance(30) => 0.0,
        _ => any_size(rng),
    }
}

/// The product of the other branch beside one of this size.
fn draw_other(rng: &mut Rng, ceiling: i64, size: f32) -> f32 {
    let cut = cut(size);
    let sign = rng.pick(&[1.0, -1.0]);
    match rng.below(10) {
        _ if size.is_infinite() && rng.chance(40) => -size,
        // The sum is at a half or at the ceiling, or just beside it.
        0..=2 => {
            let other = sign * edge(rng, ceiling) - cut;
            near(rng, other)
        }
        // The sum cancels, or nearly so.
        3 => -size,
        4 => -near(rng, cut),
        // Half of the distance to the next float, so that the sum is rounded.
        5..=7 => {
            let before = f32::from_bits(cut.to_bits().saturating_sub(1));
            sign * near(rng, (cut - before) / 2.0)
        }
        8 => sign * 0.0,
        _ => sign * draw_size(rng, ceiling),
    }
}
