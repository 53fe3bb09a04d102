//! Texts of blocks, good ones and damaged ones.

use crate::damage::damage;
use crate::generate::{bad_limit, fault_count};
use crate::plan::{draw_m, good_plan, Plan, CEILING, LIMIT};
use crate::rng::Rng;
use second::text::{MOST_BYTES, POSITION_NAMES, SETTING_NAMES};
use second::LARGEST_LIMIT;

/// Sizes of long texts, most of them at the bound.
pub const LONG: [usize; 6] = [
    MOST_BYTES - 1,
    MOST_BYTES,
    MOST_BYTES,
    MOST_BYTES + 1,
    40_000,
    100_000,
];

/// A text for one call.
pub struct Drawn {
    pub text: Vec<u8>,
    /// The number of positions that it was drawn with.
    pub n: usize,
}

pub fn draw_text(rng: &mut Rng) -> Drawn {
    let m = draw_m(rng);
    let mut plan = good_plan(rng, m);
    // Good; wrong numbers; damaged; both. The limit is wrong more often.
    let (faults, damages) = match rng.below(100) {
        0..=24 => (0, 0),
        25..=54 => (1 + fault_count(rng), 0),
        55..=89 => (0, rng.pick(&[1, 1, 1, 2, 3])),
        _ => (1 + fault_count(rng), rng.pick(&[1, 2])),
    };
    for _ in 0..faults {
        spoil_numbers(rng, &mut plan);
    }
    if rng.chance(10) {
        plan.settings[LIMIT] = bad_limit(rng);
    }
    let mut lines = write_lines(rng, &plan);
    if rng.chance(8) {
        let target = rng.pick(&LONG);
        pad(rng, &mut lines, target);
    }
    let mut text = lines.concat();
    for _ in 0..damages {
        text = damage(rng, text);
    }
    Drawn {
        text,
        n: plan.mask.len(),
    }
}

/// The text of a plan in a random spelling.
pub fn spelled(rng: &mut Rng, plan: &Plan) -> Vec<u8> {
    write_lines(rng, plan).concat()
}

/// Puts one number out of its range, within what six digits can hold.
fn spoil_numbers(rng: &mut Rng, plan: &mut Plan) {
    let wild = rng.pick(&[
        -1, -2, -999_999, 999_999, 65_536, 65_537, 32_768, 256, 257, 300,
    ]);
    let place = rng.below(plan.mask.len());
    let ceiling = plan.settings[CEILING];
    match rng.below(12) {
        0..=2 => plan.settings[rng.below(6)] = wild,
        3 | 4 => {
            let edges = [
                (0, 11),
                (0, 2048),
                (0, 17),
                (0, LARGEST_LIMIT + 1),
                (5, 6),
                (0, rng.pick(&[9, ceiling + 1])),
            ];
            let setting = rng.below(6);
            let (low, high) = edges[setting];
            plan.settings[setting] = if rng.chance(50) { low } else { high };
        }
        5 => plan.mask[place] = wild,
        6 => plan.mask[place] = 2,
        7 => plan.mask.fill(1),
        8 => plan.llr[place] = wild,
        9 | 10 => plan.settings[LIMIT] = bad_limit(rng),
        _ => plan.llr[place] = rng.pick(&[ceiling + 1, -ceiling - 1, -32_768, 32_767]),
    }
}

/// The lines of a text, each with its byte 10.
fn write_lines(rng: &mut Rng, plan: &Plan) -> Vec<Vec<u8>> {
    let style = rng.below(3);
    let mut lines = vec![
        [SETTING_NAMES, b"\n"].concat(),
        write_line(rng, style, &plan.settings),
        [POSITION_NAMES, b"\n"].concat(),
    ];
    for i in 0..plan.mask.len() {
        let values = [i as i64, plan.mask[i], plan.llr[i]];
        lines.push(write_line(rng, style, &values));
    }
    lines
}

/// Values in plain form, or with leading zeros, minus zeros and more spaces.
fn write_line(rng: &mut Rng, style: usize, values: &[i64]) -> Vec<u8> {
    let mut line = String::new();
    for (place, value) in values.iter().enumerate() {
        if place > 0 {
            let wide = style == 2 && rng.chance(20);
            let spaces = if wide { 2 + rng.below(4) } else { 1 };
            line += &" ".repeat(spaces);
        }
        let minus = *value < 0 || (style > 0 && *value == 0 && rng.chance(20));
        let digits = if style > 0 && rng.chance(30) {
            1 + rng.below(6)
        } else {
            1
        };
        line += if minus { "-" } else { "" };
        line += &format!("{:0digits$}", value.abs());
    }
    line.push('\n');
    line.into_bytes()
}

/// Makes the text longer, to the target, by spaces between values.
fn pad(rng: &mut Rng, lines: &mut [Vec<u8>], target: usize) {
    let size: usize = lines.iter().map(Vec::len).sum();
    if size >= target {
        return;
    }
    let line = if rng.chance(50) {
        1
    } else {
        3 + rng.below(lines.len() - 3)
    };
    widen_line(&mut lines[line], target - size);
}

/// Puts so many more spaces before the second value of a line.
pub fn widen_line(line: &mut Vec<u8>, more: usize) {
    let place = line.iter().position(|&b| b == b' ').unwrap_or(0);
    line.splice(place..place, std::iter::repeat_n(b' ', more));
}
