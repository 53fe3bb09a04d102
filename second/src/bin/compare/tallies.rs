//! Tallies that a call may be counted in, and such as are refused with 15.

use crate::rng::Rng;
use second::{Tally, LARGEST_LIMIT, MOST_ITERATIONS};

/// The most iterations that so many endings can have.
pub fn most_iterations(endings: i64) -> i64 {
    MOST_ITERATIONS as i64 * endings
}

/// Iterations that so many endings can have, at a bound or between: most often
/// as many as only a tally has that is older than the largest limit.
pub fn draw_iterations(rng: &mut Rng, endings: i64) -> i64 {
    let (today, most) = (LARGEST_LIMIT * endings, most_iterations(endings));
    match rng.below(8) {
        0 => endings,
        1 => today,
        2 => most.min(today + 1),
        3 | 4 => rng.between(today, most),
        5 | 6 => most,
        _ => rng.between(endings, most),
    }
}

/// Whether a tally can be counted on and has more iterations than calls under
/// the largest limit can have led to.
pub fn is_old(tally: &Tally) -> bool {
    let endings = i64::from(tally.reason1) + i64::from(tally.reason2);
    tally.may_count() && i64::from(tally.iterations) > LARGEST_LIMIT * endings
}

/// A right tally of the given number of endings and refusals.
fn right(rng: &mut Rng, endings: i64, refusals: i64) -> [i64; 5] {
    let reason1 = rng.between(0, endings);
    let iterations = draw_iterations(rng, endings);
    let blocks = endings + refusals;
    [blocks, reason1, endings - reason1, refusals, iterations]
}

/// A right tally of small, middling or nearly full size.
fn any_right(rng: &mut Rng) -> [i64; 5] {
    let blocks = match rng.below(4) {
        0 => rng.between(0, 3),
        1 => rng.between(999_990, 999_999),
        2 => 999_999,
        _ => rng.between(0, 999_999),
    };
    let endings = match rng.below(4) {
        0 => 0,
        1 => blocks,
        _ => rng.between(0, blocks),
    };
    right(rng, endings, blocks - endings)
}

/// One step over a bound, mostly.
fn at_a_bound(rng: &mut Rng) -> [i64; 5] {
    let mut tally = any_right(rng);
    let endings = tally[1] + tally[2];
    match rng.below(7) {
        0 => {
            let over = 1_000_000 + rng.below(2) as i64;
            let endings = rng.pick(&[0, 1, 500_000, over]);
            tally = right(rng, endings, over - endings);
        }
        1 => tally[0] += rng.pick(&[-1, 1]),
        2 => tally[4] = endings - 1,
        3 | 4 => tally[4] = most_iterations(endings) + 1,
        5 => tally[rng.below(4)] += rng.pick(&[-1, 1]),
        _ => tally[rng.below(5)] = rng.between(0xffff_fff0, 0xffff_ffff),
    }
    tally
}

/// Numbers that only fit when sums are cut to 32 bits.
fn wrapping(rng: &mut Rng) -> [i64; 5] {
    let mut tally = any_right(rng);
    let shift = rng.between(1, 0xffff_ffff);
    let fields = rng.pick(&[(1, 2), (1, 3), (2, 3)]);
    tally[fields.0] += shift;
    tally[fields.1] += 0x1_0000_0000 - shift;
    if rng.chance(30) {
        tally[4] = rng.between(0xffff_ff00, 0xffff_ffff);
    }
    tally
}

/// A tally that a call may be counted in.
pub fn usable(rng: &mut Rng) -> [u32; 5] {
    if rng.chance(20) {
        return [0; 5];
    }
    any_right(rng).map(|v| v as u32)
}

/// A tally that refuses every call with 15.
pub fn unusable(rng: &mut Rng) -> [u32; 5] {
    loop {
        let numbers = match rng.below(10) {
            0..=4 => at_a_bound(rng),
            5..=7 => wrapping(rng),
            8 => [0; 5].map(|_| rng.between(0xffff_ff00, 0xffff_ffff)),
            _ => [0; 5].map(|_| rng.between(0, 0xffff_ffff)),
        };
        let numbers = numbers.map(|v| v as u32);
        if !Tally::from_list(numbers).may_count() {
            return numbers;
        }
    }
}

/// What the tallies of a list hold, apart from one that is drawn on its own.
#[derive(Clone, Copy)]
pub enum Others {
    Zeros,
    Usable,
    Unusable,
    Either,
    Noise,
}

/// One tally of such a list.
pub fn draw_other(rng: &mut Rng, others: Others) -> [u32; 5] {
    match others {
        Others::Zeros => [0; 5],
        Others::Usable => usable(rng),
        Others::Unusable => unusable(rng),
        Others::Either if rng.chance(50) => usable(rng),
        Others::Either => unusable(rng),
        Others::Noise => [0; 5].map(|_| rng.next() as u32),
    }
}
