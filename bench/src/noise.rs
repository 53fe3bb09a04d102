//! Noise: LLRs or samples of the all-zero message after a Gaussian channel. How well a block is decoded doesn't depend
//! on the message.
use crate::fronts::Branch;

/// A small generator of random numbers (splitmix64).
pub struct Random(pub u64);

impl Random {
    fn word(&mut self) -> u64 {
        self.0 = self.0.wrapping_add(0x9e37_79b9_7f4a_7c15);
        let mut z = self.0;
        z = (z ^ (z >> 30)).wrapping_mul(0xbf58_476d_1ce4_e5b9);
        z = (z ^ (z >> 27)).wrapping_mul(0x94d0_49bb_1331_11eb);
        z ^ (z >> 31)
    }

    /// Above 0, at most 1.
    pub fn unit(&mut self) -> f64 {
        ((self.word() >> 11) + 1) as f64 / (1u64 << 53) as f64
    }

    /// Below `end`, and as good as evenly: `end` is small beside 2^64.
    pub fn below(&mut self, end: u64) -> u64 {
        self.word() % end
    }

    /// A normal variate, by Box and Muller.
    pub fn normal(&mut self) -> f64 {
        (-2.0 * self.unit().ln()).sqrt() * (2.0 * std::f64::consts::PI * self.unit()).cos()
    }

    /// A Rayleigh variate: above 0, its square 1 on average.
    pub fn rayleigh(&mut self) -> f64 {
        // below 1, so that its logarithm isn't 0
        let unit = ((self.word() >> 12) as f64 + 0.5) / (1u64 << 52) as f64;
        (-unit.ln()).sqrt()
    }
}

/// The variance of the noise at a ratio Eb/N0, for a code of this rate and amplitude 1.
pub fn variance_at(db: f64, rate: f64) -> f64 {
    10f64.powf(-db / 10.0) / (2.0 * rate)
}

/// The same for a code of rate one half.
pub fn variance(db: f64) -> f64 {
    variance_at(db, 0.5)
}

/// LLRs at a ratio Eb/N0, for a code of rate one half: the exact ones, 2/σ² times the sample, times `times`, as whole
/// numbers.
pub fn llrs(n: usize, db: f64, times: f64, ceiling: i16, random: &mut Random) -> Vec<i16> {
    let variance = variance(db);
    let top = f64::from(ceiling);
    (0..n)
        .map(|_| {
            let sample = 1.0 + variance.sqrt() * random.normal();
            (times * 2.0 / variance * sample).round().clamp(-top, top) as i16
        })
        .collect()
}

/// What an antenna receives of a signal of this amplitude in noise of this variance. The factor is
/// `times` the exact one, which is twice the amplitude over the variance.
pub fn branch(n: usize, amplitude: f64, variance: f64, times: f64, random: &mut Random) -> Branch {
    let deviation = variance.sqrt();
    Branch {
        factor: (times * 2.0 * amplitude / variance) as f32,
        samples: (0..n)
            .map(|_| (amplitude + deviation * random.normal()) as f32)
            .collect(),
    }
}
