//! `selftest` for the criteria.

use crate::resting::{ending_by, ending_by_sums};
use crate::selftest::wrong;
use second::code::widen;
use second::text::accepted;
use second::tidy::tidy_text;
use second::{Ending, Lent, Refusal, Settings};

/// The settings that a call is answered by, with the fault that is asked for.
pub fn taken_as(settings: &Settings) -> Settings {
    let with = |criterion, operand| Settings {
        criterion,
        operand,
        ..*settings
    };
    let (ceiling, operand) = (settings.ceiling, settings.operand);
    // An operand above the ceiling is never reached, as under criterion 0.
    let never = with(0, 0);
    match settings.criterion {
        // Wrong: one criterion less, or one more.
        4 if wrong("criterion_4_refused") => with(5, operand),
        5 if wrong("criterion_5_accepted") => with(4, operand),
        // Wrong: an operand just outside the range is accepted.
        4 if wrong("criterion_4_operand_0") && operand == 0 => with(4, 1),
        4 if wrong("criterion_4_above_ceiling") && operand == ceiling + 1 => never,
        // Wrong: the range of criterion 3.
        4 if wrong("criterion_4_range_of_3") => match operand {
            1..=8 if operand > ceiling => never,
            1..=8 => *settings,
            _ => with(4, 0),
        },
        _ => *settings,
    }
}

/// Wrong: the report of a text under criterion 4 goes on to the limit.
pub fn report_to_limit(text: &[u8]) -> Vec<u8> {
    match accepted(text) {
        Ok(mut block) if block.settings.criterion == 4 => {
            (block.settings.criterion, block.settings.operand) = (0, 0);
            second::report(&tidy_text(&block))
        }
        _ => second::report(text),
    }
}

/// What a call that has just ended leaves, if its criterion has the fault that
/// is asked for.
pub fn with_faults(
    settings: &Settings,
    (mask, llr): (&[u8], &[i16]),
    lent: &mut Lent,
    right: Ending,
) -> Result<Ending, Refusal> {
    let n = 1 << settings.m;
    let block = (widen(&mask[..n]), widen(&llr[..n]));
    match wrong_ending(settings, &block.0, &block.1) {
        None => Ok(right),
        Some(ending) => decode_until(ending, settings, (mask, llr), lent),
    }
}

/// Decodes once more up to this ending, whatever the criterion says there.
pub fn decode_until(
    ending: Ending,
    settings: &Settings,
    (mask, llr): (&[u8], &[i16]),
    lent: &mut Lent,
) -> Result<Ending, Refusal> {
    let until_then = Settings {
        limit: i64::from(ending.iterations),
        criterion: 0,
        operand: 0,
        ..*settings
    };
    second::decode(&until_then, mask, llr, lent)?;
    Ok(ending)
}

/// Where the fault that is asked for makes a call end.
fn wrong_ending(settings: &Settings, mask: &[i64], llr: &[i64]) -> Option<Ending> {
    // Wrong: a criterion reads the sums of the messages, at frozen positions too.
    if wrong(&format!("criterion_{}_sums", settings.criterion)) {
        return Some(ending_by_sums(settings, mask, llr));
    }
    if settings.criterion != 4 {
        return None;
    }
    let looking_at = |settings, positions| Some(ending_by(settings, (mask, llr), mask, positions));
    let (information, frozen): (Vec<usize>, Vec<usize>) =
        (0..mask.len()).partition(|&i| mask[i] == 0);
    // Wrong: the frozen positions.
    if wrong("criterion_4_frozen") {
        return looking_at(settings, &frozen);
    }
    // Wrong: of several information positions all but the first, or but the last.
    let left_out = usize::from(information.len() > 1);
    if wrong("criterion_4_not_the_first") {
        return looking_at(settings, &information[left_out..]);
    }
    if wrong("criterion_4_not_the_last") {
        return looking_at(settings, &information[..information.len() - left_out]);
    }
    // Wrong: a size has to be larger than the operand.
    if wrong("criterion_4_larger") {
        let next = Settings {
            operand: settings.operand + 1,
            ..*settings
        };
        return looking_at(&next, &information);
    }
    None
}
