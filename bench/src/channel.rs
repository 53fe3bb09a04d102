//! The channels: what is received of a block of zeros, as samples, and the LLRs that the proved front makes of them.
use crate::noise::{self, Random};
use crate::{fronts, Block};
use std::ops::RangeInclusive;

#[derive(Clone, Copy, PartialEq)]
pub enum Channel {
    Gaussian,
    /// Gaussian, with a Rayleigh amplitude for each block that the receiver knows.
    Fading,
    /// A sample is 1, or with some probability -1.
    Flipping,
    /// A sample is 1, or with some probability 0.
    Erasing,
}

pub const NAMES: [(&str, Channel); 4] = [
    ("gaussian", Channel::Gaussian),
    ("fading", Channel::Fading),
    ("flipping", Channel::Flipping),
    ("erasing", Channel::Erasing),
];

impl Channel {
    /// Whether a point is the probability of a bad sample, and not a ratio Eb/N0 in dB.
    fn has_probability(self) -> bool {
        matches!(self, Channel::Flipping | Channel::Erasing)
    }

    /// What a point is, as the data name it.
    pub fn column(self) -> &'static str {
        if self.has_probability() {
            "probability"
        } else {
            "db"
        }
    }

    /// A point, as a reader sees it.
    pub fn place(self, point: f64) -> String {
        if self.has_probability() {
            format!("probability {point}")
        } else {
            format!("{point} dB")
        }
    }

    /// The points that there can be.
    pub fn bounds(self) -> RangeInclusive<f64> {
        match self {
            Channel::Gaussian | Channel::Fading => -100.0..=100.0,
            Channel::Flipping => 1e-9..=0.499999,
            Channel::Erasing => 0.0..=1.0,
        }
    }

    /// One block: its LLRs at a point, with `times` the exact factor or weight.
    pub fn receive(self, point: f64, times: f64, block: &mut Block, random: &mut Random) {
        let (m, ceiling, n) = (block.m, block.ceiling, 1 << block.m);
        let mut samples = |bad: f32| -> Vec<f32> {
            let mut sample = || if random.unit() <= point { bad } else { 1.0 };
            (0..n).map(|_| sample()).collect()
        };
        let refused = match self {
            Channel::Flipping => {
                let weight = times * ((1.0 - point) / point).ln();
                let samples = samples(-1.0);
                fronts::flipping(m, ceiling, weight as f32, &samples, &mut block.llr)
            }
            Channel::Erasing => fronts::erasing(m, ceiling, &samples(0.0), &mut block.llr),
            Channel::Gaussian | Channel::Fading => {
                let variance = noise::variance_at(point, block.rate());
                let amplitude = match self {
                    Channel::Fading => random.rayleigh(),
                    _ => 1.0,
                };
                let branch = noise::branch(n, amplitude, variance, times, random);
                fronts::proved(m, ceiling, &[branch], &mut block.llr)
            }
        };
        assert_eq!(refused, 0, "the proved front refuses a block");
    }
}

#[cfg(test)]
mod tests {
    use super::*;

    /// The LLRs of one block of 1024, with a mask of rate one half.
    fn llrs(channel: Channel, point: f64, times: f64) -> Vec<i16> {
        let mut block = Block {
            m: 10,
            ceiling: 2047,
            scale: 15,
            mask: crate::masks::half(10),
            llr: vec![0; 1024],
        };
        channel.receive(point, times, &mut block, &mut Random(1));
        block.llr
    }

    #[test]
    fn samples_are_flipped_and_erased() {
        // 16 ln 9 = 35.2
        let flipped = llrs(Channel::Flipping, 0.1, 16.0);
        assert!(flipped.iter().all(|llr| llr.abs() == 35));
        let share = flipped.iter().filter(|llr| **llr < 0).count();
        assert!((70..140).contains(&share), "{share} of 1024");
        assert!(llrs(Channel::Erasing, 0.0, 16.0)
            .iter()
            .all(|llr| *llr == 2047));
        assert!(llrs(Channel::Erasing, 1.0, 16.0)
            .iter()
            .all(|llr| *llr == 0));
    }

    #[test]
    fn noise_has_the_energy_of_the_rate() {
        assert_eq!(noise::variance_at(2.5, 0.5), noise::variance(2.5));
        assert_eq!(noise::variance_at(0.0, 0.25), 2.0);
        // the mean of an exact LLR is 2/σ², here 20 at 10 dB
        let sum: i32 = llrs(Channel::Gaussian, 10.0, 1.0)
            .into_iter()
            .map(i32::from)
            .sum();
        assert!((sum / 1024 - 20).abs() <= 1, "{sum}");
    }
}
