//! The second library under the C names, so that `compare` can be tried out
//! without the other one. The environment variable VEDROGNE_WRONG names a
//! fault that it then has; `compare` must find each of them. With
//! VEDROGNE_BOTH_WRONG both sides have it.

use crate::selftest_contents::{iterations_left, Old};
use crate::{selftest_criteria, selftest_frozen, selftest_limits, selftest_scaling};
use second::{Channel, Lent, Refusal, Settings};
use std::slice::{from_raw_parts, from_raw_parts_mut};
use std::sync::OnceLock;

/// Whether the named fault is asked for.
pub fn wrong(name: &str) -> bool {
    static WRONG: OnceLock<String> = OnceLock::new();
    WRONG.get_or_init(|| std::env::var("VEDROGNE_WRONG").unwrap_or_default()) == name
}

/// Whether both sides have the fault, so that it is only found by what is said
/// of a call on its own or of several calls.
pub fn both_wrong() -> bool {
    static BOTH: OnceLock<bool> = OnceLock::new();
    *BOTH.get_or_init(|| std::env::var_os("VEDROGNE_BOTH_WRONG").is_some())
}

fn number(answer: Result<(), Refusal>) -> u32 {
    answer.map_or_else(Refusal::number, |()| 0)
}

/// # Safety
/// As in the C interface: each pointer reaches as many elements as its length.
#[no_mangle]
unsafe extern "C" fn vedrogne_encode(
    m: u32,
    mask: *const u8,
    mask_len: usize,
    message: *const u8,
    message_len: usize,
    block: *mut u8,
    block_len: usize,
) -> u32 {
    let mask = from_raw_parts(mask, mask_len);
    let message = from_raw_parts(message, message_len);
    let block = from_raw_parts_mut(block, block_len);
    // Wrong: the message's length is tested before the mask is read.
    if wrong("message_first") && message.is_empty() && (1..=10).contains(&m) {
        return 7;
    }
    let answer = second::encode(i64::from(m), mask, message, block);
    // Wrong: a block of size 1024 has its last bit turned.
    if wrong("last_bit") && answer.is_ok() && m == 10 {
        block[1023] ^= 1;
    }
    number(answer)
}

/// # Safety
/// As in the C interface.
#[no_mangle]
unsafe extern "C" fn vedrogne_read_out(
    m: u32,
    mask: *const u8,
    mask_len: usize,
    bits: *const u8,
    bits_len: usize,
    message: *mut u8,
    message_len: usize,
) -> u32 {
    let mask = from_raw_parts(mask, mask_len);
    let bits = from_raw_parts(bits, bits_len);
    let message = from_raw_parts_mut(message, message_len);
    let answer = second::read_out(i64::from(m), mask, bits, message);
    // Wrong: clears what lies behind the message.
    if wrong("clear_rest") && answer.is_ok() {
        let k = mask[..1 << m].iter().filter(|&&v| v == 0).count();
        message[k..].fill(0);
    }
    number(answer)
}

/// # Safety
/// As in the C interface.
#[no_mangle]
unsafe extern "C" fn vedrogne_front_gaussian(
    m: u32,
    ceiling: u32,
    factor: f32,
    samples: *const f32,
    samples_len: usize,
    llr: *mut i16,
    llr_len: usize,
) -> u32 {
    let samples = from_raw_parts(samples, samples_len);
    let llr = from_raw_parts_mut(llr, llr_len);
    let channel = Channel::Gaussian(factor);
    let answer = second::front(i64::from(m), i64::from(ceiling), channel, samples, llr);
    if answer.is_ok() {
        for (target, &sample) in llr.iter_mut().zip(&samples[..1 << m]) {
            let single = f64::from(sample * factor);
            let double = f64::from(sample) * f64::from(factor);
            // Wrong: halves to even; or the product taken in 64 bits.
            if wrong("half_even") && single.abs() < f64::from(ceiling) {
                *target = single.round_ties_even() as i16;
            }
            if wrong("double_product") && double.abs() < f64::from(ceiling) {
                *target = double.round() as i16;
            }
        }
    }
    number(answer)
}

/// # Safety
/// As in the C interface.
#[no_mangle]
unsafe extern "C" fn vedrogne_front_flipping(
    m: u32,
    ceiling: u32,
    weight: f32,
    samples: *const f32,
    samples_len: usize,
    llr: *mut i16,
    llr_len: usize,
) -> u32 {
    let samples = from_raw_parts(samples, samples_len);
    let llr = from_raw_parts_mut(llr, llr_len);
    let (m, ceiling) = (i64::from(m), i64::from(ceiling));
    // Wrong: a subnormal weight counts as zero.
    if wrong("subnormal") && weight.is_subnormal() {
        return number(second::front(
            m,
            ceiling,
            Channel::Flipping(0.0),
            samples,
            llr,
        ));
    }
    number(second::front(
        m,
        ceiling,
        Channel::Flipping(weight),
        samples,
        llr,
    ))
}

/// # Safety
/// As in the C interface.
#[no_mangle]
unsafe extern "C" fn vedrogne_front_erasing(
    m: u32,
    ceiling: u32,
    samples: *const f32,
    samples_len: usize,
    llr: *mut i16,
    llr_len: usize,
) -> u32 {
    let samples = from_raw_parts(samples, samples_len);
    let llr = from_raw_parts_mut(llr, llr_len);
    let answer = second::front(
        i64::from(m),
        i64::from(ceiling),
        Channel::Erasing,
        samples,
        llr,
    );
    // Wrong: a zero takes the ceiling.
    if wrong("zero_sign") && answer.is_ok() && samples[0] == 0.0 {
        llr[0] = ceiling as i16;
    }
    number(answer)
}

/// A pointer with the length beside it.
type Raw<T> = (*mut T, usize);

pub unsafe fn slice<'a, T>(raw: (*const T, usize)) -> &'a [T] {
    from_raw_parts(raw.0, raw.1)
}

pub unsafe fn slice_mut<'a, T>(raw: Raw<T>) -> &'a mut [T] {
    from_raw_parts_mut(raw.0, raw.1)
}

/// The slices of a decoder call.
pub struct Decoding<'a> {
    pub settings: &'a [u32],
    pub mask: &'a [u8],
    pub llr: &'a [i16],
    pub lent: Lent<'a>,
    pub iterations: *mut u32,
    pub reason: *mut u32,
}

impl Decoding<'_> {
    fn settings(&self) -> Option<Settings> {
        let cut = |v: u32| if wrong("cut_settings") { v & 0xffff } else { v };
        let list = self.settings.first_chunk::<6>()?;
        Some(Settings::from_list(list.map(|v| i64::from(cut(v)))))
    }

    /// Decodes, with the faults that are asked for.
    fn answer(&mut self, settings: &Settings) -> Result<second::Ending, Refusal> {
        if wrong("order") && self.mask.is_empty() {
            return Err(Refusal::Slice);
        }
        if wrong("read_rest") && self.llr.iter().any(|&v| i64::from(v).abs() > 2047) {
            settings.check()?;
            return Err(Refusal::Llr);
        }
        let settings = &selftest_limits::taken_as("decode", settings);
        let settings = &selftest_criteria::taken_as(settings);
        let (block, lent) = ((self.mask, self.llr), &mut self.lent);
        let old = Old::of(lent);
        let ending = second::decode(settings, self.mask, self.llr, lent)?;
        let ending = selftest_scaling::with_faults(settings, block, lent, ending)?;
        let ending = selftest_criteria::with_faults(settings, block, lent, ending)?;
        let mut ending = old.with_faults(settings, block, lent, ending)?;
        selftest_frozen::put_faults(settings, self.mask, lent);
        if wrong("reason_at_limit") && i64::from(ending.iterations) == settings.limit {
            ending.reason = 2;
        }
        if wrong("decode_limit_64_reason") && ending.iterations == 64 {
            ending.reason = 2;
        }
        if wrong("past_end") && self.lent.soft.len() > 1 << settings.m {
            self.lent.soft[1 << settings.m] = 0;
        }
        if wrong("workspace") && settings.m == 5 {
            self.lent.work.swap(300, 301);
        }
        Ok(ending)
    }

    /// The whole call.
    pub unsafe fn run(&mut self) -> u32 {
        let Some(settings) = self.settings() else {
            return 7;
        };
        let answer = self.answer(&settings);
        self.close(answer)
    }

    /// The number for C, with iterations and reason written.
    unsafe fn close(&mut self, answer: Result<second::Ending, Refusal>) -> u32 {
        *self.iterations = iterations_left(*self.iterations, &answer);
        match answer {
            Ok(ending) => {
                *self.reason = ending.reason;
                0
            }
            Err(refusal) => {
                if wrong("fence") {
                    *self.lent.work.as_mut_ptr().wrapping_sub(1) = 0;
                }
                refusal.number()
            }
        }
    }
}

/// # Safety
/// As in the C interface.
#[no_mangle]
unsafe extern "C" fn vedrogne_decode(
    settings: *const u32,
    settings_len: usize,
    mask: *const u8,
    mask_len: usize,
    llr: *const i16,
    llr_len: usize,
    soft: *mut i16,
    soft_len: usize,
    mark: *mut u8,
    mark_len: usize,
    coded_soft: *mut i16,
    coded_soft_len: usize,
    coded_mark: *mut u8,
    coded_mark_len: usize,
    work: *mut i16,
    work_len: usize,
    iterations: *mut u32,
    reason: *mut u32,
) -> u32 {
    let lent = Lent {
        soft: slice_mut((soft, soft_len)),
        mark: slice_mut((mark, mark_len)),
        coded_soft: slice_mut((coded_soft, coded_soft_len)),
        coded_mark: slice_mut((coded_mark, coded_mark_len)),
        work: slice_mut((work, work_len)),
    };
    let mut call = Decoding {
        settings: slice((settings, settings_len)),
        mask: slice((mask, mask_len)),
        llr: slice((llr, llr_len)),
        lent,
        iterations,
        reason,
    };
    call.run()
}
