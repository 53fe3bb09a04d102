//! `selftest` for the front with two antennas.

use crate::selftest::{slice, slice_mut, wrong};
use second::front::LARGEST_PRODUCT;

/// A call, with factor and samples of each branch.
struct Two<'a> {
    m: u32,
    ceiling: u32,
    factors: [f32; 2],
    branches: [&'a [f32]; 2],
}

/// # Safety
/// As in the C interface.
#[no_mangle]
unsafe extern "C" fn vedrogne_front_two(
    m: u32,
    ceiling: u32,
    first_factor: f32,
    second_factor: f32,
    first: *const f32,
    first_len: usize,
    second: *const f32,
    second_len: usize,
    llr: *mut i16,
    llr_len: usize,
) -> u32 {
    // Wrong: the settings are cut to 16 bits.
    let taken_as = |v: u32| {
        if wrong("antennas_settings_cut") {
            v & 0xffff
        } else {
            v
        }
    };
    let call = Two {
        m: taken_as(m),
        ceiling: taken_as(ceiling),
        factors: [first_factor, second_factor],
        branches: [slice((first, first_len)), slice((second, second_len))],
    };
    let answer = call.answer(slice_mut((llr, llr_len)));
    // Wrong: the first product is left where its sample was.
    if wrong("antennas_samples_written") && answer == 0 {
        *first.cast_mut() = call.product(0, 0) as f32;
    }
    answer
}

impl Two<'_> {
    /// The number of positions; some good one where m is outside its range.
    fn n(&self) -> usize {
        1 << self.m.clamp(1, 10)
    }

    /// The whole call.
    fn answer(&self, llr: &mut [i16]) -> u32 {
        let number = self.number(llr.len());
        // Wrong: a refusal writes.
        if number == 0 {
            self.write(llr);
        } else if wrong("antennas_refusal_writes") {
            llr.iter_mut().take(1).for_each(|value| *value = 0);
        }
        number
    }

    /// The number of the refusal, 0 for none.
    fn number(&self, llr_len: usize) -> u32 {
        let order = match () {
            // Wrong: two tests in the other order.
            _ if wrong("antennas_2_before_1") => [2, 1, 7, 11, 12],
            _ if wrong("antennas_7_before_2") => [1, 7, 2, 11, 12],
            _ if wrong("antennas_11_before_7") => [1, 2, 11, 7, 12],
            _ if wrong("antennas_12_before_11") => [1, 2, 7, 12, 11],
            _ => [1, 2, 7, 11, 12],
        };
        let applies = |number: &u32| match number {
            1 => !(1..=10).contains(&self.m),
            2 => !(1..=2047).contains(&self.ceiling),
            7 => self.is_short(llr_len),
            11 => !self.has_good_factors(),
            _ => !self.has_good_samples(),
        };
        order.into_iter().find(applies).unwrap_or(0)
    }

    /// Whether one of the slices is shorter than needed.
    fn is_short(&self, llr_len: usize) -> bool {
        let n = self.n();
        // Wrong: a length is not tested, or one element less or more is needed.
        let needed = |slice: &str| match () {
            _ if wrong(&format!("antennas_{slice}_length")) => 0,
            _ if wrong(&format!("antennas_{slice}_one_less")) => n - 1,
            _ if wrong(&format!("antennas_{slice}_one_more")) => n + 1,
            _ => n,
        };
        let [first, second] = self.branches.map(<[f32]>::len);
        first < needed("first") || second < needed("second") || llr_len < needed("llr")
    }

    fn has_good_factors(&self) -> bool {
        let good = |factor: f32| match factor {
            // Wrong: a zero is accepted, or a subnormal is not.
            0.0 if wrong("antennas_factor_0") => true,
            _ if wrong("antennas_subnormal_factor") => factor.is_normal() && factor > 0.0,
            _ => factor.is_finite() && factor > 0.0,
        };
        let [first, second] = self.factors;
        match () {
            // Wrong: one of them is tested, or their sum or product.
            _ if wrong("antennas_first_factor_tested") => good(first),
            _ if wrong("antennas_second_factor_tested") => good(second),
            _ if wrong("antennas_either_factor") => good(first) || good(second),
            _ if wrong("antennas_factor_sum") => good(first + second),
            _ if wrong("antennas_factor_product") => good(first * second),
            _ => good(first) && good(second),
        }
    }

    fn has_good_samples(&self) -> bool {
        let [first, second] = self.branches;
        let tested = match () {
            // Wrong: one branch is tested.
            _ if wrong("antennas_first_samples_tested") => vec![first],
            _ if wrong("antennas_second_samples_tested") => vec![second],
            _ => vec![first, second],
        };
        let n = match () {
            // Wrong: what is behind is tested too.
            _ if wrong("antennas_rest_tested") => usize::MAX,
            _ => self.n(),
        };
        let finite = |samples: &&[f32]| samples.iter().take(n).all(|s| s.is_finite());
        // Wrong: a product beyond the format is refused.
        let refused = wrong("antennas_infinite_refused")
            && (0..self.n()).any(|i| self.products(i).iter().any(|p| p.is_infinite()));
        tested.iter().all(finite) && !refused
    }

    /// Writes the LLRs.
    fn write(&self, llr: &mut [i16]) {
        let n = self.n();
        for (i, target) in llr.iter_mut().take(n).enumerate() {
            *target = self.whole(self.sum(i));
        }
        // Wrong: what is behind is cleared.
        if wrong("antennas_rest_cleared") {
            llr[n..].fill(0);
        }
    }

    /// A sample; one that is missing is 0.
    fn sample(&self, branch: usize, i: usize) -> f32 {
        let sample = self.branches[branch].get(i).copied().unwrap_or(0.0);
        // Wrong: a subnormal is taken as 0.
        if wrong("antennas_subnormal_sample") && sample.is_subnormal() {
            return 0.0;
        }
        sample
    }

    /// A product before it is cut.
    fn product(&self, branch: usize, i: usize) -> f64 {
        let sample = self.sample(branch, i);
        let factor = match () {
            // Wrong: the factor of one branch for both, or that of the other.
            _ if wrong("antennas_first_factor_for_both") => self.factors[0],
            _ if wrong("antennas_second_factor_for_both") => self.factors[1],
            _ if wrong("antennas_factors_exchanged") => self.factors[1 - branch],
            _ => self.factors[branch],
        };
        // Wrong: it is not rounded.
        if wrong("antennas_double_product") {
            return f64::from(sample) * f64::from(factor);
        }
        f64::from(sample * factor)
    }

    fn products(&self, i: usize) -> [f64; 2] {
        [0, 1].map(|branch| self.product(branch, i))
    }

    fn cut(&self, branch: usize, product: f64) -> f64 {
        let bits = LARGEST_PRODUCT.to_bits();
        let largest = match () {
            // Wrong: the size it is cut to.
            _ if wrong("antennas_cut_4095") => 4095.0,
            _ if wrong("antennas_cut_next_below") => f32::from_bits(bits - 1),
            _ if wrong("antennas_cut_next_above") => f32::from_bits(bits + 1),
            _ if wrong("antennas_cut_at_ceiling") => self.ceiling as f32,
            // Wrong: nothing is cut, or one branch, or what is not infinite.
            _ if wrong("antennas_not_cut") => f32::INFINITY,
            _ if wrong("antennas_first_not_cut") && branch == 0 => f32::INFINITY,
            _ if wrong("antennas_second_not_cut") && branch == 1 => f32::INFINITY,
            _ if wrong("antennas_infinite_not_cut") && product.is_infinite() => f32::INFINITY,
            _ => LARGEST_PRODUCT,
        };
        product.clamp(-f64::from(largest), f64::from(largest))
    }

    fn sum(&self, i: usize) -> f64 {
        let [one, other] = [0, 1].map(|branch| self.cut(branch, self.product(branch, i)));
        let rounded = f64::from((one + other) as f32);
        match () {
            // Wrong: it is not rounded, or towards zero, or with the first product.
            _ if wrong("antennas_double_sum") => one + other,
            _ if wrong("antennas_sum_toward_zero") => toward_zero(one + other),
            _ if wrong("antennas_fused") && one.abs() < f64::from(LARGEST_PRODUCT) => {
                f64::from(self.sample(0, i).mul_add(self.factors[0], other as f32))
            }
            // Wrong: opposite products beyond the format add up to the ceiling.
            _ if wrong("antennas_no_number") && self.products(i).iter().sum::<f64>().is_nan() => {
                f64::from(self.ceiling)
            }
            // Wrong: products are whole; or their mean; or the larger one.
            _ if wrong("antennas_whole_products") => one.round() + other.round(),
            _ if wrong("antennas_mean") => rounded / 2.0,
            _ if wrong("antennas_larger") && one.abs() > other.abs() => one,
            _ if wrong("antennas_larger") => other,
            _ => rounded,
        }
    }

    /// The whole number of a sum.
    fn whole(&self, sum: f64) -> i16 {
        let ceiling = f64::from(self.ceiling);
        if sum.abs() >= ceiling {
            return ceiling.copysign(sum) as i16;
        }
        let whole = match () {
            // Wrong: halves to even, or up.
            _ if wrong("antennas_half_even") => sum.round_ties_even(),
            _ if wrong("antennas_half_up") => (sum + 0.5).floor(),
            _ => sum.round(),
        };
        whole as i16
    }
}

/// The nearest 32-bit float of no larger size.
fn toward_zero(value: f64) -> f64 {
    let rounded = value as f32;
    let farther = f64::from(rounded).abs() > value.abs();
    f64::from(f32::from_bits(rounded.to_bits() - u32::from(farther)))
}
