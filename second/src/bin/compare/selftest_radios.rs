//! `selftest` for the calls for a radio.

use crate::radio_draws::NUMBERS;
use crate::selftest::{slice, slice_mut, wrong, Decoding};
use crate::tallies::is_old;
use second::{Lent, Tally, MOST_ITERATIONS};

/// # Safety
/// As in the C interface.
#[no_mangle]
unsafe extern "C" fn vedrogne_decode_radio(
    radio: u32,
    tallies: *mut u32,
    tallies_len: usize,
    settings: *const u32,
    settings_len: usize,
    mask: *const u8,
    mask_len: usize,
    llr: *const i16,
    llr_len: usize,
    soft: *mut i16,
    soft_len: usize,
    mark: *mut u8,
    mark_len: usize,
    coded_soft: *mut i16,
    coded_soft_len: usize,
    coded_mark: *mut u8,
    coded_mark_len: usize,
    work: *mut i16,
    work_len: usize,
    iterations: *mut u32,
    reason: *mut u32,
) -> u32 {
    let lent = Lent {
        soft: slice_mut((soft, soft_len)),
        mark: slice_mut((mark, mark_len)),
        coded_soft: slice_mut((coded_soft, coded_soft_len)),
        coded_mark: slice_mut((coded_mark, coded_mark_len)),
        work: slice_mut((work, work_len)),
    };
    let mut call = Decoding {
        settings: slice((settings, settings_len)),
        mask: slice((mask, mask_len)),
        llr: slice((llr, llr_len)),
        lent,
        iterations,
        reason,
    };
    let tallies = slice_mut((tallies, tallies_len));
    let radio = taken_as(radio);
    match tested(radio, tallies, call.settings.len()) {
        Err(number) => {
            spoil_refused(radio, tallies, &mut *call.reason, number);
            number
        }
        Ok(radio) => {
            let answer = call.run();
            count(radio, tallies, answer, (*call.iterations, *call.reason));
            answer
        }
    }
}

/// The radio's number, with the fault that is asked for.
fn taken_as(radio: u32) -> u32 {
    let place = radio.wrapping_mul(5);
    match radio {
        // Wrong: the number, or the place of its tally, cut to fewer bits.
        _ if wrong("radio_cut") => radio & 0xff,
        _ if wrong("radio_place_wraps") && place < NUMBERS as u32 => place / 5,
        // Wrong: one radio more, which has the tally of the last one.
        64 if wrong("radio_64_accepted") => 63,
        // Wrong: one radio less.
        63 if wrong("radio_63_refused") => 64,
        _ => radio,
    }
}

/// The radio that the call counts for, or the number of a refusal.
fn tested(radio: u32, tallies: &[u32], settings_len: usize) -> Result<usize, u32> {
    let far = radio > 63;
    let radio = radio.min(63) as usize;
    // Wrong: the last number may be missing, or all behind the radio's own.
    let needed = match () {
        _ if wrong("radio_319_numbers") => NUMBERS - 1,
        _ if wrong("radio_own_numbers") => 5 * radio + 5,
        _ => NUMBERS,
    };
    let (few_numbers, few_settings) = (tallies.len() < needed, settings_len < 6);
    // Wrong: 16 before 7, of the tallies or of the settings.
    let early = wrong("radio_7_after_16") || (wrong("radio_settings_after_16") && !few_numbers);
    if early && far {
        return Err(16);
    }
    // Wrong: a short list of settings is refused by the decoder, and counted.
    if few_numbers || (few_settings && !wrong("radio_settings_counted")) {
        // Wrong: 15 before 7 of the settings.
        let early = wrong("radio_settings_after_15") && !few_numbers && !far;
        return Err(if early && !may_count(radio, tallies) {
            15
        } else {
            7
        });
    }
    // Wrong: the tally of radio 0 is looked at, or those of all radios.
    let usable = match () {
        _ if wrong("radio_15_of_0") => may_count(0, tallies),
        _ if wrong("radio_15_of_all") => (0..64).all(|radio| may_count(radio, tallies)),
        _ => may_count(radio, tallies),
    };
    // Wrong: 15 before 16.
    if far && (usable || !wrong("radio_16_after_15")) {
        return Err(16);
    }
    if usable {
        Ok(radio)
    } else {
        Err(15)
    }
}

/// The tally of a radio; a number that is missing counts as 0.
fn tally_of(radio: usize, tallies: &[u32]) -> Tally {
    let number = |i| tallies.get(5 * radio + i).copied().unwrap_or(0);
    Tally::from_list(std::array::from_fn(number))
}

fn may_count(radio: usize, tallies: &[u32]) -> bool {
    let tally = tally_of(radio, tallies);
    // Wrong: sums are cut to 32 bits.
    if wrong("tally_wraps") {
        let endings = tally.reason1.wrapping_add(tally.reason2);
        return tally.blocks < 1_000_000
            && tally.blocks == endings.wrapping_add(tally.refusals)
            && tally.iterations >= endings
            && tally.iterations <= endings.wrapping_mul(MOST_ITERATIONS as u32);
    }
    // Wrong: one block more.
    if wrong("tally_full") && tally.blocks == 1_000_000 {
        return true;
    }
    most_iterations(&tally).map_or(tally.may_count(), |most| {
        let endings = tally.reason1.wrapping_add(tally.reason2);
        let fewest = Tally {
            iterations: endings,
            ..tally
        };
        fewest.may_count() && (u64::from(endings)..=most).contains(&u64::from(tally.iterations))
    })
}

/// The bound of the iterations, with the fault that is asked for.
fn most_iterations(tally: &Tally) -> Option<u64> {
    let endings = u64::from(tally.reason1) + u64::from(tally.reason2);
    let most = MOST_ITERATIONS * endings;
    match () {
        // Wrong: that of the limit; an iteration less, or one more.
        _ if wrong("tally_64_iterations") => Some(64 * endings),
        _ if wrong("tally_one_iteration_less") => Some(most.saturating_sub(1)),
        _ if wrong("tally_one_iteration_more") => Some(most + 1),
        _ => None,
    }
}

/// Adds to a number of a radio, where the list has it.
fn add(radio: usize, tallies: &mut [u32], place: usize, more: u32) {
    if let Some(number) = tallies.get_mut(5 * radio + place) {
        *number = number.wrapping_add(more);
    }
}

/// Sets numbers to 0, as far as the list has them.
fn clear(tallies: &mut [u32], from: usize, to: usize) {
    let numbers = tallies.iter_mut().take(to).skip(from);
    numbers.for_each(|number| *number = 0);
}

/// Counts an answer, with the faults that are asked for.
fn count(radio: usize, tallies: &mut [u32], answer: u32, (iterations, reason): (u32, u32)) {
    // Wrong: the next radio starts anew, or what is behind the last one.
    if wrong("radio_next_cleared") {
        clear(tallies, 5 * radio + 5, (5 * radio + 10).min(NUMBERS));
    }
    if wrong("radio_rest_cleared") {
        clear(tallies, NUMBERS, usize::MAX);
    }
    // Wrong: all is counted for radio 0, or the iterations for a neighbour.
    let radio = if wrong("radio_counts_in_0") { 0 } else { radio };
    let neighbour = radio ^ usize::from(wrong("radio_iterations_elsewhere"));
    if answer == 0 {
        add(radio, tallies, reason as usize, 1);
        add(neighbour, tallies, 4, iterations);
    } else if wrong("radio_refusal_not_counted") {
        return;
    } else {
        add(radio, tallies, 3, 1);
    }
    add(radio, tallies, 0, 1);
    // Wrong: an old tally loses what the limit can't have led to.
    let tally = tally_of(radio, tallies);
    if wrong("tally_old_cut") && is_old(&tally) {
        tallies[5 * radio + 4] = 64 * (tally.reason1 + tally.reason2);
    }
}

/// Puts the faults that are asked for into what a refused call leaves.
fn spoil_refused(radio: u32, tallies: &mut [u32], reason: &mut u32, number: u32) {
    // Wrong: a refusal writes the reason.
    if wrong("radio_refusal_writes") {
        *reason = 0;
    }
    // Wrong: a refusal with 16 is counted, for the last radio or the first.
    let counting = match number {
        16 if wrong("radio_16_counted_in_63") => Some(63),
        16 if wrong("radio_16_counted_in_0") => Some(0),
        // Wrong: a refusal with 15 is counted.
        15 if wrong("radio_15_counted") => Some(radio as usize),
        _ => None,
    };
    if let Some(radio) = counting {
        add(radio, tallies, 0, 1);
        add(radio, tallies, 3, 1);
    }
    // Wrong: a tally that is refused starts anew.
    if number == 15 && wrong("radio_15_rewritten") {
        let own = 5 * radio as usize;
        clear(tallies, own, own + 5);
    }
}
