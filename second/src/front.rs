//! The channel front: samples to whole LLRs, for one antenna and for two.

use crate::code::{block_len, require_lengths};
use crate::refusal::{require, Refusal};

/// The three channel kinds.
#[derive(Clone, Copy, Debug)]
pub enum Channel {
    /// Gaussian, with a factor.
    Gaussian(f32),
    /// Flipping, with a weight.
    Flipping(f32),
    /// Erasing.
    Erasing,
}

/// With two antennas the largest size of a branch's product.
pub const LARGEST_PRODUCT: f32 = 4096.0;

/// A receiver with two antennas: the factor of each branch.
#[derive(Clone, Copy, Debug)]
pub struct Receiver {
    pub first: f32,
    pub second: f32,
}

/// Turns the first N samples into LLRs. Refusals 1, 2, 7, 11, 12.
pub fn front(
    m: i64,
    ceiling: i64,
    channel: Channel,
    samples: &[f32],
    llr: &mut [i16],
) -> Result<(), Refusal> {
    let factors = match channel {
        Channel::Gaussian(number) | Channel::Flipping(number) => vec![number],
        Channel::Erasing => vec![],
    };
    let [samples] = tested(m, ceiling, &factors, [samples], llr.len())?;
    for (target, &sample) in llr.iter_mut().zip(samples) {
        *target = one_llr(ceiling, channel, sample);
    }
    Ok(())
}

/// Turns the first N samples of both branches into LLRs, those of one position
/// into one. Refusals 1, 2, 7, 11, 12.
pub fn front_two(
    m: i64,
    ceiling: i64,
    receiver: Receiver,
    branches: [&[f32]; 2],
    llr: &mut [i16],
) -> Result<(), Refusal> {
    let factors = [receiver.first, receiver.second];
    let [first, second] = tested(m, ceiling, &factors, branches, llr.len())?;
    for (target, samples) in llr.iter_mut().zip(first.iter().zip(second)) {
        // Each product and the sum are rounded once; the sum is finite.
        let sum = cut(samples.0 * receiver.first) + cut(samples.1 * receiver.second);
        *target = whole(ceiling, sum);
    }
    Ok(())
}

/// What every front tests of its factors or weight and of its branches. The
/// first N samples of each branch.
fn tested<'a, const BRANCHES: usize>(
    m: i64,
    ceiling: i64,
    factors: &[f32],
    branches: [&'a [f32]; BRANCHES],
    llr_len: usize,
) -> Result<[&'a [f32]; BRANCHES], Refusal> {
    let n = block_len(m)?;
    require((1..=2047).contains(&ceiling), Refusal::Ceiling)?;
    require_lengths(n, &branches.map(<[f32]>::len))?;
    require_lengths(n, &[llr_len])?;
    let usable = |factor: &f32| factor.is_finite() && *factor > 0.0;
    require(factors.iter().all(usable), Refusal::Factor)?;
    let branches = branches.map(|samples| &samples[..n]);
    let finite = |samples: &&[f32]| samples.iter().all(|s| s.is_finite());
    require(branches.iter().all(finite), Refusal::Sample)?;
    Ok(branches)
}

/// A branch's product, which may be infinite, cut to the largest size.
pub fn cut(product: f32) -> f32 {
    product.clamp(-LARGEST_PRODUCT, LARGEST_PRODUCT)
}

/// The LLR of one finite sample.
fn one_llr(ceiling: i64, channel: Channel, sample: f32) -> i16 {
    let value = match channel {
        // One single-precision product, rounded once; it may be infinite.
        Channel::Gaussian(factor) => sample * factor,
        Channel::Flipping(weight) => signed(weight, sample),
        Channel::Erasing => signed(ceiling as f32, sample),
    };
    whole(ceiling, value)
}

/// The size with the sample's sign; 0 for either zero.
fn signed(size: f32, sample: f32) -> f32 {
    if sample > 0.0 {
        size
    } else if sample < 0.0 {
        -size
    } else {
        0.0
    }
}

/// The nearest whole number, halves away from zero, cut to the ceiling.
fn whole(ceiling: i64, value: f32) -> i16 {
    // A 64-bit float holds every 32-bit float and every ceiling exactly.
    let value = f64::from(value);
    let top = ceiling as f64;
    if value >= top {
        ceiling as i16
    } else if value <= -top {
        -(ceiling as i16)
    } else {
        // `round` is exact and takes halves away from zero.
        value.round() as i16
    }
}
