//! Calls for a radio, with every combination of reasons to be refused.

use crate::calls::{Counting, DecodeCall};
use crate::generate::*;
use crate::memory::Fenced;
use crate::plan::draw_m;
use crate::rng::Rng;
use crate::tallies::{draw_other, unusable, usable, Others};
use second::RADIOS;

/// So many numbers are needed in a list of tallies.
pub const NUMBERS: usize = 5 * RADIOS;

/// Reasons to refuse a call, each on its own.
struct Reasons {
    few_numbers: bool,
    few_settings: bool,
    radio: bool,
    tally: bool,
    decoder: bool,
}

/// A call for a radio, and what it was drawn with.
pub struct Drawn {
    pub call: DecodeCall,
    /// The numbers of the reasons to refuse it.
    pub reasons: String,
}

impl Reasons {
    /// None in two of five calls, else any combination.
    fn draw(rng: &mut Rng) -> Self {
        let bits = if rng.chance(40) { 0 } else { rng.below(16) };
        let [list, radio, tally, decoder] = [1, 2, 4, 8].map(|bit| bits & bit != 0);
        let (few_numbers, few_settings) = rng.pick(&[(true, false), (true, true), (false, true)]);
        let (few_numbers, few_settings) = (list && few_numbers, list && few_settings);
        Reasons {
            few_numbers,
            few_settings,
            radio,
            tally,
            decoder,
        }
    }

    fn told(&self) -> String {
        let reasons = [
            (self.few_numbers || self.few_settings, "7 of a list"),
            (self.radio, "16"),
            (self.tally, "15"),
            (self.decoder, "the decoder's"),
        ];
        let present = reasons.iter().filter(|(present, _)| *present);
        let names: Vec<&str> = present.map(|(_, name)| *name).collect();
        if names.is_empty() {
            return "none".to_string();
        }
        names.join(", ")
    }
}

pub fn draw_for_radio(rng: &mut Rng) -> Drawn {
    let reasons = Reasons::draw(rng);
    let m = draw_m(rng);
    let mut plan = good_decode(rng, m);
    if reasons.decoder {
        for _ in 0..1 + fault_count(rng) {
            spoil_for_decoder(rng, &mut plan);
        }
    }
    if reasons.few_settings {
        plan.settings_len = rng.pick(&[0, 1, 4, 5, 5, 5]);
    }
    let radio = if reasons.radio {
        bad_radio(rng)
    } else {
        good_radio(rng)
    };
    let tallies = draw_tallies(rng, radio, &reasons);
    let call = build_decode(rng, &plan, Some(Counting { radio, tallies }));
    Drawn {
        call,
        reasons: reasons.told(),
    }
}

/// A reason for the decoder to refuse, other than a short list of settings.
fn spoil_for_decoder(rng: &mut Rng, plan: &mut DecodePlan) {
    loop {
        spoil_decode(rng, plan);
        if plan.settings_len >= 6 {
            return;
        }
        plan.settings_len = 6;
    }
}

/// Any radio, the first and the last ones more often.
pub fn good_radio(rng: &mut Rng) -> u32 {
    if rng.chance(60) {
        rng.pick(&[0, 0, 1, 62, 63, 63])
    } else {
        rng.below(RADIOS) as u32
    }
}

/// The next numbers, the largest ones, and such as fall into range when they,
/// or five times of them, are cut to fewer bits.
pub fn bad_radio(rng: &mut Rng) -> u32 {
    let inside = good_radio(rng);
    match rng.below(10) {
        0..=2 => 64,
        3 => rng.pick(&[65, 66, 127, 128, 255]),
        4 => rng.pick(&[0x8000_0000, 0x8000_0000 + inside]),
        5 => rng.pick(&[0xffff_ffff, 0xffff_ffff - inside]),
        6 => rng.pick(&[0x100, 0x1_0000, 0x100_0000]) + inside,
        // Five times the first of these is 4 more than the 32nd power of 2.
        7 => 0x3333_3334 + inside,
        8 => 64 + rng.below(1000) as u32,
        _ => rng.between(64, 0xffff_ffff) as u32,
    }
}

/// A list of tallies. Where the radio's number is no good one there is none of
/// its own, so that 15 would apply where all are unusable.
fn draw_tallies(rng: &mut Rng, radio: u32, reasons: &Reasons) -> Fenced<u32> {
    let others = match rng.below(7) {
        _ if reasons.radio && reasons.tally => Others::Unusable,
        0 => Others::Zeros,
        1 | 2 => Others::Usable,
        3 | 4 => Others::Unusable,
        5 => Others::Either,
        _ => Others::Noise,
    };
    let len = numbers_len(rng, radio, reasons.few_numbers);
    // They go on behind the end of the list, where no radio has any.
    let count = len.max(NUMBERS) / 5 + 5;
    let mut tallies: Vec<[u32; 5]> = (0..count).map(|_| draw_other(rng, others)).collect();
    if !reasons.radio {
        tallies[radio as usize] = if reasons.tally {
            unusable(rng)
        } else {
            usable(rng)
        };
    }
    Fenced::cut(rng, &tallies.concat(), len)
}

/// The length of a list of tallies.
pub fn numbers_len(rng: &mut Rng, radio: u32, few: bool) -> usize {
    match rng.below(8) {
        // The list ends with the radio's own numbers.
        0 if few && radio < 63 => 5 * radio as usize + 5,
        0 | 1 if few => rng.below(NUMBERS),
        2 | 3 if few => rng.pick(&[0, 4, 5, 64, 315]),
        _ if few => NUMBERS - 1,
        0 => NUMBERS + 1,
        1 => NUMBERS + rng.below(20),
        2 => NUMBERS + rng.below(1000),
        _ => NUMBERS,
    }
}
