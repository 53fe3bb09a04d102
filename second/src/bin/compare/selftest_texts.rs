//! `selftest` for the calls that read and write texts.

use crate::selftest::{slice, slice_mut, wrong};
use crate::selftest_criteria::report_to_limit;
use crate::selftest_frozen::report_of_sums;
use crate::selftest_limits::{taken_as, text_taken_as};
use crate::text_calls::REPORT_ROOM;
use second::code::{require_lengths, widen};
use second::text::{accepted, Block, SETTING_NAMES};
use second::tidy::{tested, tidy_text};
use second::{Refusal, Settings};

/// # Safety
/// As in the C interface.
#[no_mangle]
unsafe extern "C" fn vedrogne_read(
    text: *const u8,
    text_len: usize,
    settings: *mut u32,
    settings_len: usize,
    mask: *mut u8,
    mask_len: usize,
    llr: *mut i16,
    llr_len: usize,
) -> u32 {
    // Wrong: a byte 10 behind the text ends its last line.
    let behind = wrong("read_behind") && *text.add(text_len) == b'\n';
    let text = slice((text, text_len + usize::from(behind)));
    let settings = slice_mut((settings, settings_len));
    let mask = slice_mut((mask, mask_len));
    let llr = slice_mut((llr, llr_len));
    // Wrong: 7 for the settings tested after the text, or 7 for mask and LLRs after 8 to 10.
    if wrong("settings_late") || (wrong("mask_late") && settings.len() >= 6) {
        if let Err(refusal) = accepted(text) {
            return refusal.number();
        }
    }
    let Some(settings) = settings.first_chunk_mut::<6>() else {
        return 7;
    };
    match second::read(&text_taken_as("read", text), mask, llr) {
        // Wrong: the decoder has a criterion that the reader refuses.
        Ok(read) if wrong("read_criterion_4") && read.criterion == 4 => 5,
        Ok(read) => {
            *settings = read.list().map(|v| v as u32);
            if wrong("read_clears") {
                mask[1 << read.m..].fill(0);
            }
            0
        }
        Err(refusal) => {
            if wrong("read_refusal_writes") && refusal == Refusal::Llr {
                settings[0] = 0;
            }
            refusal.number()
        }
    }
}

/// # Safety
/// As in the C interface.
#[no_mangle]
unsafe extern "C" fn vedrogne_write(
    settings: *const u32,
    settings_len: usize,
    mask: *const u8,
    mask_len: usize,
    llr: *const i16,
    llr_len: usize,
    text: *mut u8,
    text_len: usize,
    written: *mut usize,
) -> u32 {
    let Some(settings) = slice((settings, settings_len)).first_chunk::<6>() else {
        return 7;
    };
    let (mask, llr) = (slice((mask, mask_len)), slice((llr, llr_len)));
    let text = slice_mut((text, text_len));
    match write(settings, mask, llr, text) {
        Ok(len) => {
            *written = len;
            0
        }
        Err(refusal) => {
            if wrong("written_early") && refusal == Refusal::Slice {
                *written = 0;
            }
            refusal.number()
        }
    }
}

/// Writes, with the faults that are asked for.
fn write(list: &[u32; 6], mask: &[u8], llr: &[i16], text: &mut [u8]) -> Result<usize, Refusal> {
    let settings = taken_as("write", &Settings::from_list(list.map(setting)));
    // Wrong: 7 for the text before 8 to 10.
    if wrong("text_early") {
        let n = settings.check()?;
        require_lengths(n, &[mask.len(), llr.len()])?;
        let (mask, llr) = (widen(&mask[..n]), widen(&llr[..n]));
        let untested = Block {
            settings,
            mask,
            llr,
        };
        require_lengths(tidy_text(&untested).len(), &[text.len()])?;
    }
    let mut tidy = spell(&block(&settings, mask, llr)?);
    // Wrong: a text short by one gets all but the last byte; or one of the exact length is refused.
    if wrong("short_by_one") && text.len() + 1 == tidy.len() {
        tidy.pop();
    }
    let needed = tidy.len() + usize::from(wrong("exact_refused"));
    require_lengths(needed, &[text.len()])?;
    text[..tidy.len()].copy_from_slice(&tidy);
    if wrong("text_clears") {
        text[tidy.len()..].fill(0);
    }
    Ok(tidy.len())
}

/// Wrong: 4294967295 is read as -1 and loses its minus.
fn setting(value: u32) -> i64 {
    if wrong("setting_signed") && value == u32::MAX {
        1
    } else {
        i64::from(value)
    }
}

fn block(settings: &Settings, mask: &[u8], llr: &[i16]) -> Result<Block, Refusal> {
    if !wrong("llr_size_wraps") {
        return tested(settings, mask, llr);
    }
    // Wrong: the size of -32768, taken in 16 bits, is below every ceiling.
    let sizes: Vec<i16> = llr.iter().map(|v| v.wrapping_abs().max(0)).collect();
    let mut block = tested(settings, mask, &sizes)?;
    block.llr = widen(&llr[..block.llr.len()]);
    Ok(block)
}

/// The tidy text, or one with a fault that few blocks show.
fn spell(block: &Block) -> Vec<u8> {
    let mut text = tidy_text(block);
    let last = block.llr.last().copied().unwrap_or(0);
    let place = text.len() - 1 - last.to_string().len();
    if wrong("leading_zero") && (1..10).contains(&last) {
        text.insert(place, b'0');
    }
    if wrong("minus_zero") && last == 0 {
        text.insert(place, b'-');
    }
    if wrong("two_spaces") && last < -999 {
        text.insert(place, b' ');
    }
    if wrong("name_left_out") && block.settings.operand == 0 {
        let end = SETTING_NAMES.len();
        text.drain(end - " operand".len()..end);
    }
    if wrong("no_line_end") {
        text.pop();
    }
    text
}

/// # Safety
/// As in the C interface.
#[no_mangle]
unsafe extern "C" fn vedrogne_report(
    text: *const u8,
    text_len: usize,
    out: *mut u8,
    out_len: usize,
    written: *mut usize,
) -> u32 {
    let text = slice((text, text_len));
    let out = slice_mut((out, out_len));
    // Wrong: one element less is enough.
    if out.len() + usize::from(wrong("report_room")) < REPORT_ROOM {
        return 7;
    }
    let report = if wrong("report_sums") {
        report_of_sums(text)
    } else if wrong("report_criterion_4") {
        report_to_limit(text)
    } else {
        second::report(&text_taken_as("report", text))
    };
    // Wrong: the last byte is counted and left as it was; or what is behind the report is cleared.
    let copied = report.len() - usize::from(wrong("report_end_kept"));
    out[..copied].copy_from_slice(&report[..copied]);
    if wrong("report_clears") {
        out[copied..].fill(0);
    }
    *written = report.len();
    // Wrong: a refused text's number is returned.
    match accepted(text) {
        Err(refusal) if wrong("report_number") => refusal.number(),
        _ => 0,
    }
}
