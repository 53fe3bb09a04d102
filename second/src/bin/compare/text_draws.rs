//! Random calls that read and write texts, with every length around what is
//! needed.

use crate::generate::{bad_limit, bytes, draw_decode, enough};
use crate::memory::Fenced;
use crate::plan::{draw_m, Plan, LIMIT};
use crate::rng::Rng;
use crate::text_calls::{ReadCall, ReportCall, WriteCall, REPORT_ROOM};
use crate::texts::draw_text;
use second::text::Block;
use second::tidy::tidy_text;
use second::Settings;

/// A length at what is needed, just beside it, or far from it.
fn around(rng: &mut Rng, needed: usize) -> usize {
    match rng.below(12) {
        0 => 0,
        1 => rng.below(needed),
        2..=4 => needed - 1,
        5..=7 => needed,
        8 | 9 => needed + 1,
        10 => needed + rng.below(9),
        _ => needed + rng.below(3000),
    }
}

/// Mostly a length that suffices.
fn mostly_enough(rng: &mut Rng, needed: usize) -> usize {
    if rng.chance(35) {
        around(rng, needed)
    } else {
        enough(rng, needed)
    }
}

/// The length of a list of settings, from 0 to 8, mostly six or more.
fn settings_len(rng: &mut Rng) -> usize {
    if rng.chance(8) {
        rng.below(9)
    } else {
        6 + rng.below(3)
    }
}

pub fn draw_read(rng: &mut Rng) -> ReadCall {
    let drawn = draw_text(rng);
    let (settings_len, n) = (settings_len(rng), drawn.n);
    let (mask_len, llr_len) = (mostly_enough(rng, n), mostly_enough(rng, n));
    ReadCall {
        text: lend_text(rng, &drawn.text),
        settings: Fenced::blank(rng, settings_len),
        mask: Fenced::blank(rng, mask_len),
        llr: Fenced::blank(rng, llr_len),
    }
}

/// The text, at times without its last bytes, which then stand behind it.
fn lend_text(rng: &mut Rng, text: &[u8]) -> Fenced<u8> {
    let left_out = if rng.chance(10) {
        rng.pick(&[1, 1, 2, 5, 16])
    } else {
        0
    };
    Fenced::cut(rng, text, text.len().saturating_sub(left_out))
}

pub fn draw_write(rng: &mut Rng) -> WriteCall {
    let m = draw_m(rng);
    let mut drawn = draw_decode(rng, m);
    if rng.chance(15) {
        set_extreme(rng, &mut drawn.plan);
    }
    if rng.chance(10) {
        drawn.plan.settings[LIMIT] = bad_limit(rng);
    }
    if rng.chance(10) {
        drawn.lengths[rng.below(2)] = around(rng, 1 << m);
    }
    if drawn.settings_len >= 6 {
        drawn.settings_len = settings_len(rng);
    }
    let room = text_room(rng, tidy_text(&block_of(&drawn.plan)).len());
    let [mask_len, llr_len, ..] = drawn.lengths;
    build_write(
        rng,
        &drawn.plan,
        [drawn.settings_len, mask_len, llr_len, room],
    )
}

/// The least LLR or the largest number that a setting can be handed in as.
fn set_extreme(rng: &mut Rng, plan: &mut Plan) {
    if rng.chance(50) {
        let place = rng.below(plan.llr.len());
        plan.llr[place] = i64::from(i16::MIN);
    } else {
        plan.settings[rng.below(6)] = i64::from(u32::MAX);
    }
}

/// The plan as a text has it.
pub fn block_of(plan: &Plan) -> Block {
    Block {
        settings: Settings::from_list(plan.settings),
        mask: plan.mask.clone(),
        llr: plan.llr.clone(),
    }
}

/// A length for the text that is written.
fn text_room(rng: &mut Rng, needed: usize) -> usize {
    match rng.below(10) {
        0 => REPORT_ROOM,
        1 => REPORT_ROOM + rng.below(3000),
        2..=6 => around(rng, needed),
        _ => enough(rng, needed),
    }
}

/// A call with slices of these lengths: settings, mask, llr, text.
pub fn build_write(rng: &mut Rng, plan: &Plan, lengths: [usize; 4]) -> WriteCall {
    let settings = plan.settings.map(|v| v as u32);
    let llr: Vec<i16> = plan.llr.iter().map(|&v| v as i16).collect();
    WriteCall {
        settings: Fenced::new(rng, &settings, lengths[0]),
        mask: Fenced::new(rng, &bytes(&plan.mask), lengths[1]),
        llr: Fenced::new(rng, &llr, lengths[2]),
        text: Fenced::blank(rng, lengths[3]),
        written: Fenced::blank(rng, 1),
    }
}

pub fn draw_report(rng: &mut Rng) -> ReportCall {
    let text = draw_text(rng).text;
    let out_len = around(rng, REPORT_ROOM);
    ReportCall {
        text: lend_text(rng, &text),
        out: Fenced::blank(rng, out_len),
        written: Fenced::blank(rng, 1),
    }
}
