//! Good blocks to decode: settings, mask and LLRs that nobody refuses.

use crate::late::redraw_ending_late;
use crate::resting::{redraw_resting_on_frozen, redraw_resting_on_last};
use crate::rng::Rng;
use second::decode::{decode_wide, Decoded};
use second::{Settings, LARGEST_LIMIT};

/// Numbers of a block, wide enough for the wrong ones too.
#[derive(Clone)]
pub struct Plan {
    /// m, ceiling, scale, limit, criterion, operand
    pub settings: [i64; 6],
    /// N values each, for the m first drawn.
    pub mask: Vec<i64>,
    pub llr: Vec<i64>,
}

/// Places of settings in their list.
pub const M: usize = 0;
pub const CEILING: usize = 1;
pub const SCALE: usize = 2;
pub const LIMIT: usize = 3;
pub const CRITERION: usize = 4;
pub const OPERAND: usize = 5;

/// Any m, small ones more often.
pub fn draw_m(rng: &mut Rng) -> i64 {
    match rng.below(100) {
        0..=54 => rng.between(1, 3),
        55..=84 => rng.between(4, 6),
        85..=95 => rng.between(7, 8),
        _ => rng.between(9, 10),
    }
}

pub fn draw_ceiling(rng: &mut Rng) -> i64 {
    match rng.below(10) {
        0 => 1,
        1 => rng.between(2, 7),
        2 | 3 => 31,
        4 => 2047,
        5 => rng.pick(&[127, 128, 255, 256, 1023, 1024, 2046]),
        _ => rng.between(1, 2047),
    }
}

/// Any limit, small ones and the largest more often.
fn draw_limit(rng: &mut Rng) -> i64 {
    match rng.below(20) {
        0 => 1,
        1..=3 => LARGEST_LIMIT,
        4 => rng.between(26, LARGEST_LIMIT),
        5..=9 => rng.between(2, 6),
        _ => rng.between(5, 25),
    }
}

/// An operand in its criterion's range.
pub fn draw_operand(rng: &mut Rng, criterion: i64, ceiling: i64) -> i64 {
    match criterion {
        2 | 4 if rng.chance(20) => ceiling,
        2 | 4 if rng.chance(60) => rng.between(1, ceiling.min(20)),
        2 | 4 => rng.between(1, ceiling),
        3 => rng.between(1, 8),
        _ => 0,
    }
}

/// A block that the decoder accepts, with this m.
pub fn good_plan(rng: &mut Rng, m: i64) -> Plan {
    let ceiling = draw_ceiling(rng);
    let scale = if rng.chance(50) {
        rng.pick(&[16, 15, 1])
    } else {
        rng.between(1, 16)
    };
    let limit = draw_limit(rng);
    let criterion = rng.between(0, 4);
    let operand = draw_operand(rng, criterion, ceiling);
    let mask = draw_mask(rng, m);
    let llr = draw_llr(rng, &mask, ceiling);
    let mut plan = Plan {
        settings: [m, ceiling, scale, limit, criterion, operand],
        mask,
        llr,
    };
    match rng.below(100) {
        0..=34 if m <= 8 => aim(rng, &mut plan),
        35..=44 if (2..=5).contains(&m) => redraw_resting_on_frozen(rng, &mut plan),
        45..=49 if (2..=5).contains(&m) => redraw_resting_on_last(rng, &mut plan),
        50..=59 if m == 2 => redraw_ending_late(rng, &mut plan),
        _ => {}
    }
    plan
}

/// Decodes a good plan.
pub fn decoded(plan: &Plan) -> Option<Decoded> {
    decode_wide(&Settings::from_list(plan.settings), &plan.mask, &plan.llr).ok()
}

/// The least size of a soft output after so many iterations of a good plan, but
/// at least 1.
pub fn least_size(plan: &Plan, iterations: i64) -> i64 {
    let mut trial = plan.clone();
    trial.settings[LIMIT] = iterations;
    trial.settings[CRITERION] = 0;
    trial.settings[OPERAND] = 0;
    let least = decoded(&trial).and_then(|d| d.outputs.soft.iter().map(|v| v.abs()).min());
    least.unwrap_or(1).max(1)
}

/// Moves an operand of criterion 2 or 4 to where it just holds after some
/// iterations, and the limit to the ending or just before it.
fn aim(rng: &mut Rng, plan: &mut Plan) {
    if matches!(plan.settings[CRITERION], 2 | 4) {
        plan.settings[OPERAND] = least_size(plan, rng.between(2, 8));
    }
    let Some(decoded) = decoded(plan).filter(|d| d.ending.reason == 1) else {
        return;
    };
    if rng.chance(60) {
        let iterations = i64::from(decoded.ending.iterations);
        plan.settings[LIMIT] = (iterations - rng.between(0, 1)).max(1);
    }
}

/// A mask with at least one information position.
pub fn draw_mask(rng: &mut Rng, m: i64) -> Vec<i64> {
    let n = 1 << m;
    let mut mask: Vec<i64> = match rng.below(8) {
        0 => vec![0; n],
        1 => vec![1; n],
        2 | 3 => {
            // Positions with many digits set are the good ones.
            let least = rng.between(1, m);
            let digits = |i: usize| i64::from(i.count_ones());
            (0..n).map(|i| i64::from(digits(i) < least)).collect()
        }
        4 | 5 => best_positions(n, 1 + rng.below(n)),
        _ => {
            let percent = rng.below(101);
            (0..n).map(|_| i64::from(rng.chance(percent))).collect()
        }
    };
    if !mask.contains(&0) {
        mask[rng.below(n)] = 0;
    }
    mask
}

/// A mask with k information positions, those that polar codes find best: the
/// digits of a position are weighed by powers of the fourth root of two.
fn best_positions(n: usize, k: usize) -> Vec<i64> {
    let root = 2_f64.powf(0.25);
    let digit = |i: usize, b: i32| if i >> b & 1 == 1 { root.powi(b) } else { 0.0 };
    let weight = |i: usize| (0..10).map(|b| digit(i, b)).sum::<f64>();
    let mut order: Vec<usize> = (0..n).collect();
    order.sort_by(|&a, &b| weight(b).total_cmp(&weight(a)));
    let mut mask = vec![1; n];
    for &i in &order[..k] {
        mask[i] = 0;
    }
    mask
}

fn draw_llr(rng: &mut Rng, mask: &[i64], ceiling: i64) -> Vec<i64> {
    let n = mask.len();
    match rng.below(12) {
        0 => vec![0; n],
        1 => (0..n).map(|_| rng.pick(&[-ceiling, 0, ceiling])).collect(),
        2 => {
            let most = ceiling.min(3);
            (0..n).map(|_| rng.between(-most, most)).collect()
        }
        3 => {
            let percent = rng.below(101);
            let mut one = |_| i64::from(rng.chance(percent)) * rng.between(-ceiling, ceiling);
            (0..n).map(&mut one).collect()
        }
        4..=6 => noisy_block(rng, mask, ceiling, 0),
        7 | 8 => {
            let against = rng.pick(&[10, 50, 100]);
            noisy_block(rng, mask, ceiling, against)
        }
        _ => (0..n).map(|_| rng.between(-ceiling, ceiling)).collect(),
    }
}

/// The block of a random word, with noise. Of a hundred frozen positions
/// `against` carry a 1, which no coder sends.
pub fn noisy_block(rng: &mut Rng, mask: &[i64], ceiling: i64, against: usize) -> Vec<i64> {
    let ones = |frozen| if frozen == 1 { against } else { 50 };
    let u: Vec<u8> = mask
        .iter()
        .map(|&frozen| u8::from(rng.chance(ones(frozen))))
        .collect();
    let strength = rng.between(1, ceiling);
    let noise = rng.between(strength / 2, 2 * strength);
    let block = second::code::coded_bits(&u);
    let sent = block.iter().map(|&bit| strength * (1 - 2 * i64::from(bit)));
    sent.map(|v| (v + rng.between(-noise, noise)).clamp(-ceiling, ceiling))
        .collect()
}
