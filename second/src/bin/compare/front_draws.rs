//! Random calls of the fronts, good ones and ones that are refused for one or
//! more reasons.

use crate::floats::{bad_number, not_finite};
use crate::front_calls::{Front, FrontCall};
use crate::generate::{bad_ceiling, bad_m, enough, fault_count, short};
use crate::memory::Fenced;
use crate::plan::{draw_ceiling, draw_m};
use crate::rng::Rng;

pub fn draw_front<F: Front>(rng: &mut Rng) -> FrontCall<F> {
    let (m, ceiling) = (draw_m(rng), draw_ceiling(rng));
    let mut call = good_front(rng, m, ceiling);
    for _ in 0..fault_count(rng) {
        spoil_front(rng, 1 << m, &mut call);
    }
    call
}

/// A call that is accepted.
pub fn good_front<F: Front>(rng: &mut Rng, m: i64, ceiling: i64) -> FrontCall<F> {
    let n = 1 << m;
    let front = F::draw(rng, ceiling);
    let branches = front.draw_branches(rng, n, ceiling);
    let mut lend = |samples: &Vec<f32>| {
        let len = enough(rng, n);
        Fenced::new(rng, samples, len)
    };
    let branches = branches.iter().map(&mut lend).collect();
    let llr_len = enough(rng, n);
    FrontCall {
        m: m as u32,
        ceiling: ceiling as u32,
        front,
        branches,
        llr: Fenced::blank(rng, llr_len),
    }
}

/// A reason to refuse a call that was drawn with n positions.
fn spoil_front<F: Front>(rng: &mut Rng, n: usize, call: &mut FrontCall<F>) {
    match rng.below(6) {
        0 => call.m = bad_m(rng) as u32,
        1 => call.ceiling = bad_ceiling(rng) as u32,
        2 => {
            let (branch, len) = (rng.below(call.branches.len()), short(rng, n));
            let samples = &mut call.branches[branch];
            *samples = Fenced::new(rng, samples.slice(), len);
        }
        3 => {
            let len = short(rng, n);
            call.llr = Fenced::blank(rng, len);
        }
        4 => spoil_factor(rng, &mut call.front),
        _ => spoil_sample(rng, n, call),
    }
}

/// A reason for refusal 11, where the front has a factor or a weight.
pub fn spoil_factor<F: Front>(rng: &mut Rng, front: &mut F) {
    let mut factors = front.factors();
    if !factors.is_empty() {
        let place = rng.below(factors.len());
        *factors[place] = bad_number(rng);
    }
}

/// A reason for refusal 12, unless the slice has been made too short for it.
pub fn spoil_sample<F>(rng: &mut Rng, n: usize, call: &mut FrontCall<F>) {
    let (branch, place) = (rng.below(call.branches.len()), rng.below(n));
    if let Some(sample) = call.branches[branch].slice_mut().get_mut(place) {
        *sample = not_finite(rng);
    }
}
