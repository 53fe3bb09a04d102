//! Random calls, good ones and ones that are refused for one or more reasons.

use crate::calls::{Counting, DecodeCall, EncodeCall, ReadOutCall};
use crate::memory::Fenced;
use crate::plan::*;
use crate::rng::Rng;
use second::LARGEST_LIMIT;

/// The largest limit until request 2026-07, refused since.
pub const FORMER_LIMIT: i64 = 200;

/// How many faults a call gets.
pub fn fault_count(rng: &mut Rng) -> usize {
    match rng.below(100) {
        0..=49 => 0,
        50..=79 => 1,
        80..=91 => 2,
        _ => 3 + rng.below(3),
    }
}

/// A length that suffices: exact, or longer.
pub fn enough(rng: &mut Rng, needed: usize) -> usize {
    match rng.below(10) {
        0 | 1 => needed + 1,
        2 | 3 => needed + rng.below(9),
        _ => needed,
    }
}

/// A length that does not suffice: mostly short by one, or empty.
pub fn short(rng: &mut Rng, needed: usize) -> usize {
    match rng.below(4) {
        0 => 0,
        1 => rng.below(needed),
        _ => needed - 1,
    }
}

/// Numbers far out, and such as fall into range when cut to fewer bits.
fn far(rng: &mut Rng, inside: i64) -> i64 {
    match rng.below(5) {
        0 => 0x1_0000 + inside,
        1 => 0x100 * rng.between(8, 0xff) + inside,
        2 => 0x8000_0000 + inside,
        3 => 0xffff_ffff - rng.between(0, 20),
        _ => rng.between(3000, 0xffff_ffff),
    }
}

pub fn bad_m(rng: &mut Rng) -> i64 {
    match rng.below(3) {
        0 => 0,
        1 => rng.pick(&[11, 12, 15, 16, 31, 32, 33, 63, 64, 65]),
        _ => far(rng, 3),
    }
}

pub fn bad_ceiling(rng: &mut Rng) -> i64 {
    match rng.below(3) {
        0 => 0,
        1 => rng.pick(&[2048, 2049, 4095, 32767, 32768, 65535]),
        _ => far(rng, 31),
    }
}

/// A limit outside its range, but not far: 0, the next one to the largest, the
/// former largest and the next one to it, any between.
pub fn bad_limit(rng: &mut Rng) -> i64 {
    match rng.below(8) {
        0 | 1 => 0,
        2 | 3 => LARGEST_LIMIT + 1,
        4 | 5 => FORMER_LIMIT,
        6 => FORMER_LIMIT + 1,
        _ => rng.between(LARGEST_LIMIT + 1, FORMER_LIMIT),
    }
}

/// An operand outside the range of the criterion.
fn bad_operand(rng: &mut Rng, settings: &[i64; 6]) -> i64 {
    let (low, high) = match settings[CRITERION] {
        2 | 4 => (1, settings[CEILING]),
        3 => (1, 8),
        _ => (0, 0),
    };
    match rng.below(4) {
        0 if low == 1 => 0,
        0 | 1 => (high + 1).min(0xffff_ffff),
        2 => (high + rng.between(1, 9)).min(0xffff_ffff),
        _ => far(rng, low),
    }
}

/// Puts one of the settings out of its range.
pub fn spoil_setting(rng: &mut Rng, place: usize, settings: &mut [i64; 6]) {
    settings[place] = match place {
        M => bad_m(rng),
        CEILING => bad_ceiling(rng),
        LIMIT if rng.chance(20) => far(rng, 1),
        LIMIT => bad_limit(rng),
        OPERAND => bad_operand(rng, settings),
        _ => {
            let (low, high) = if place == SCALE { (1, 16) } else { (0, 4) };
            match rng.below(3) {
                0 if low == 1 => 0,
                0 | 1 => high + rng.between(1, 2),
                _ => far(rng, low),
            }
        }
    };
}

/// A byte that is neither 0 nor 1.
fn bad_bit(rng: &mut Rng) -> u8 {
    match rng.below(2) {
        0 => rng.pick(&[2, 3, 128, 129, 254, 255]),
        _ => rng.between(2, 255) as u8,
    }
}

pub fn bytes(values: &[i64]) -> Vec<u8> {
    values.iter().map(|&v| v as u8).collect()
}

/// Mask and lengths of a coder or read-out call, perhaps spoilt.
struct Coding {
    m: i64,
    mask: Vec<u8>,
    message: Vec<u8>,
    /// mask, block or bits, message
    lengths: [usize; 3],
}

fn draw_coding(rng: &mut Rng) -> Coding {
    let m = draw_m(rng);
    let mask = bytes(&draw_mask(rng, m));
    let n = mask.len();
    let k = mask.iter().filter(|&&frozen| frozen == 0).count();
    let lengths = [enough(rng, n), enough(rng, n), enough(rng, k)];
    let message = (0..k).map(|_| rng.below(2) as u8).collect();
    let mut coding = Coding {
        m,
        mask,
        message,
        lengths,
    };
    for _ in 0..fault_count(rng) {
        spoil_coding(rng, &mut coding);
    }
    coding
}

fn spoil_coding(rng: &mut Rng, coding: &mut Coding) {
    let n = coding.mask.len();
    match rng.below(7) {
        0 => coding.m = bad_m(rng),
        1 => coding.lengths[0] = short(rng, n),
        2 => coding.lengths[1] = short(rng, n),
        3 => coding.lengths[2] = short(rng, coding.message.len()),
        4 => coding.mask[rng.below(n)] = bad_bit(rng),
        5 => coding.mask.fill(1),
        _ => {
            let place = rng.below(coding.message.len());
            coding.message[place] = bad_bit(rng);
        }
    }
}

pub fn draw_encode(rng: &mut Rng) -> EncodeCall {
    let coding = draw_coding(rng);
    let [mask_len, block_len, message_len] = coding.lengths;
    EncodeCall {
        m: coding.m as u32,
        mask: Fenced::new(rng, &coding.mask, mask_len),
        message: Fenced::new(rng, &coding.message, message_len),
        block: Fenced::blank(rng, block_len),
    }
}

pub fn draw_read_out(rng: &mut Rng) -> ReadOutCall {
    let coding = draw_coding(rng);
    let [mask_len, bits_len, message_len] = coding.lengths;
    ReadOutCall {
        m: coding.m as u32,
        mask: Fenced::new(rng, &coding.mask, mask_len),
        bits: Fenced::blank(rng, bits_len),
        message: Fenced::blank(rng, message_len),
    }
}

/// A decoder call before it is built.
#[derive(Clone)]
pub struct DecodePlan {
    pub plan: Plan,
    pub settings_len: usize,
    /// mask, llr, soft, mark, coded soft, coded mark, workspace
    pub lengths: [usize; 7],
}

/// What each of the seven slices needs.
fn needs(plan: &Plan) -> [usize; 7] {
    let n = plan.mask.len();
    let m = n.trailing_zeros() as usize;
    [n, n, n, n, n, n, 2 * (m + 1) * n]
}

pub fn good_decode(rng: &mut Rng, m: i64) -> DecodePlan {
    let plan = good_plan(rng, m);
    let lengths = needs(&plan).map(|needed| enough(rng, needed));
    let settings_len = enough(rng, 6);
    DecodePlan {
        plan,
        settings_len,
        lengths,
    }
}

pub fn spoil_decode(rng: &mut Rng, call: &mut DecodePlan) {
    let n = call.plan.mask.len();
    match rng.below(14) {
        place @ 0..=5 => spoil_setting(rng, place, &mut call.plan.settings),
        6 => spoil_setting(rng, LIMIT, &mut call.plan.settings),
        7 | 8 => {
            let slice = rng.below(7);
            call.lengths[slice] = short(rng, needs(&call.plan)[slice]);
        }
        9 | 10 => call.plan.mask[rng.below(n)] = i64::from(bad_bit(rng)),
        11 => call.plan.mask.fill(1),
        12 => call.plan.llr[rng.below(n)] = bad_llr(rng, call.plan.settings[CEILING]),
        _ if rng.chance(40) => call.settings_len = rng.below(6),
        _ => call.plan.llr[rng.below(n)] = bad_llr(rng, call.plan.settings[CEILING]),
    }
}

fn bad_llr(rng: &mut Rng, ceiling: i64) -> i64 {
    let above = ceiling.clamp(1, 2047) + rng.pick(&[1, 1, 2, 1000]);
    match rng.below(3) {
        0 => rng.pick(&[-32768, -32767, 32767]),
        1 => -above,
        _ => above,
    }
}

/// A decoder call with the usual share of faults.
pub fn draw_decode(rng: &mut Rng, m: i64) -> DecodePlan {
    let mut call = good_decode(rng, m);
    for _ in 0..fault_count(rng) {
        spoil_decode(rng, &mut call);
    }
    call
}

pub fn build_decode(rng: &mut Rng, call: &DecodePlan, counting: Option<Counting>) -> DecodeCall {
    let settings = call.plan.settings.map(|v| v as u32);
    let llr: Vec<i16> = call.plan.llr.iter().map(|&v| v as i16).collect();
    let lengths = call.lengths;
    DecodeCall {
        counting,
        settings: Fenced::new(rng, &settings, call.settings_len),
        mask: Fenced::new(rng, &bytes(&call.plan.mask), lengths[0]),
        llr: Fenced::new(rng, &llr, lengths[1]),
        soft: Fenced::blank(rng, lengths[2]),
        mark: Fenced::blank(rng, lengths[3]),
        coded_soft: Fenced::blank(rng, lengths[4]),
        coded_mark: Fenced::blank(rng, lengths[5]),
        work: Fenced::blank(rng, lengths[6]),
        iterations: Fenced::blank(rng, 1),
        reason: Fenced::blank(rng, 1),
    }
}
